"""The ways of what passes the library: the calls of each, and what these run, step by step."""

from collections import namedtuple

# a way: what it is of, its class in the picture, the calls that a caller makes, and its steps
Way = namedtuple("Way", "title kind calls steps")
# a function of a file, named below its crate, and what it does
Step = namedtuple("Step", "name file does")

PARSER, PROXY = "codecs/src/line_parser/parser.rt", "proxy/src/proxy.rt"
WAYS = [
    Way(
        "A byte from a socket to a reply, by `serve`",
        "serve",
        [("serve", "serve/src/service.rt")],
        [
            Step("Input::read_piece", "defs/src/input.rt", "reads a piece"),
            Step("EventDecoder::next_event", "serve/src/decoder.rt", "takes a line of it"),
            Step("parse", PARSER, "what the line means"),
            Step("Session::first", "serve/src/session.rt", "your reply to it"),
            Step("encode_reply", "codecs/src/lib.rt", "the reply's bytes"),
            Step("write_whole", "serve/src/send.rt", "writes them"),
        ],
    ),
    Way(
        "A line through the calls for C, by `unftp_next` and `unftp_reply`",
        "calls",
        [("unftp_next", "c/src/next.rt"), ("unftp_reply", "c/src/reply.rt")],
        [
            Step("unftp_next", "c/src/next.rt", "takes pending bytes"),
            Step("FtpCodec::find_line", "codecs/src/lib.rt", "finds the first line"),
            Step("Words::parts", PARSER, "its verb and value"),
            Step("give", "c/src/next.rt", "fills your area"),
            Step("unftp_reply", "c/src/reply.rt", "takes a code and a text"),
            Step("write_line", "c/src/reply.rt", "the reply's bytes"),
        ],
    ),
    Way(
        "A reply through the client, by `receive` and `next_reply`",
        "client",
        [
            ("Client::receive", "client/src/lib.rt"),
            ("Client::next_reply", "client/src/lib.rt"),
        ],
        [
            Step("Client::receive", "client/src/lib.rt", "takes a piece"),
            Step("ReplyDecoder::push", "read/src/decoder.rt", "keeps it"),
            Step("Client::next_reply", "client/src/lib.rt", "asks for a reply"),
            Step("Search::find_front", "read/src/search.rt", "finds the first one"),
            Step("copy_lines", "read/src/copying.rt", "its lines"),
            Step("Dialogue::add_code", "client/src/dialogue.rt", "which line it is to"),
        ],
    ),
    Way(
        "A line through a proxy, by `next_line`, `forward` and `next_reply`",
        "proxy",
        [
            ("Proxy::from_client", PROXY),
            ("Proxy::next_line", PROXY),
            ("Proxy::forward", PROXY),
            ("Proxy::next_reply", PROXY),
        ],
        [
            Step("Proxy::from_client", PROXY, "takes a piece"),
            Step("Proxy::next_line", PROXY, "finds a line"),
            Step("forward", "write/src/forwarding.rt", "the line to the server"),
            Step("Order::send", "client/src/order.rt", "a reply is owed to it"),
            Step("Search::find_first", "read/src/search.rt", "finds that reply"),
            Step("Order::pass", "client/src/order.rt", "passes it to the client"),
        ],
    ),
]


def crate_of(file):
    """The crate of a file that is named below it."""
    return f"unftp_control_{file.partition('/')[0]}"


def item_of(graph, name, file):
    """The function of this name and file, or None."""
    place = crate_of(file), file.partition("/")[2]
    return next((it for it in graph.items if (it.crate, it.file, str(it)) == (*place, name)), None)


def faults(graph, way):
    """Which steps are in no source any more, and which none of the way's calls runs."""
    calls = [item_of(graph, *call) for call in way.calls]
    run = {it for call in calls if call for it in graph.reached(call)}
    for step in way.steps:
        item = item_of(graph, step.name, step.file)
        if not item:
            yield f"there is no {step.name} in {step.file}"
        elif item not in run:
            yield f"no call runs {step.name} any more: {way.title}"
    for call in way.calls:
        if not item_of(graph, *call):
            yield f"there is no {call[0]} in {call[1]}"
