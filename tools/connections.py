"""A socket whose one program reads and writes it: login_demo, started for each connection, as inetd starts it."""

import socket
import struct
import time

# how many seconds the peer may go on sending once the program has ended
LINGER = 2
# where the milliseconds since bytes were last sent are in the `struct tcp_info` of Linux, and its length up to their end
LAST_DATA_SENT, INFO_LENGTH = 44, 48


def urgent_in_line(connection):
    """Puts urgent bytes where they were sent: the line feed of an ABOR may be one (RFC 959, section 4.1.3), and would be missing."""
    connection.setsockopt(socket.SOL_SOCKET, socket.SO_OOBINLINE, 1)


def silence(connection):
    """How many seconds ago bytes were last sent to the peer."""
    info = connection.getsockopt(socket.IPPROTO_TCP, socket.TCP_INFO, INFO_LENGTH)
    return struct.unpack_from("=I", info, LAST_DATA_SENT)[0] / 1000


def finish(connection, reply=b""):
    """Ends a connection whose program has ended, after a last reply. What the peer still sends is read and dropped, for LINGER seconds at
    most: a socket that is closed with bytes unread resets the connection, and then the last reply may never be read."""
    deadline = time.monotonic() + LINGER
    try:
        connection.settimeout(LINGER)
        connection.sendall(reply)
        connection.shutdown(socket.SHUT_WR)
        while (left := deadline - time.monotonic()) > 0:
            connection.settimeout(left)
            if not connection.recv(4096):
                break
    except OSError:
        pass  # it has reset the connection itself, sends nothing more, or doesn't read
    connection.close()


def refuse(connection, reply):
    """Answers a client that is not served. It has sent nothing yet, where it waits for the greeting."""
    try:
        connection.setblocking(False)
        connection.send(reply)
        connection.shutdown(socket.SHUT_WR)
        connection.recv(4096)
    except OSError:
        pass  # it is gone, or has sent nothing
    connection.close()
