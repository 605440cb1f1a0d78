#!/usr/bin/env perl
# Runs the tests of a module of proftpd's test suite, in the folder `tests` of its sources, at the server that PROFTPD_TEST_BIN starts. The
# texts of replies are not compared, and of their codes the first digit; paths in commands begin at the user's folder, as at a server that
# serves only that; and the user is the one that the server has. A reply to ABOR may be 225. Prints a line for each test: its name, `ok`,
# `failed` or `skipped`, and why, with tabs between.
#
# usage: perl proftpd_tests.pl MODULE USER PASSWORD [PATTERN]      USER is `proftpd` at proftpd itself, which is sent all as it is
use strict;
use warnings;
use lib 't/lib';
use File::Path qw(rmtree);
use Net::Cmd;
use Test::Unit::TestCase;

my ($module, $user, $password, $pattern) = @ARGV;
my $limit = 400;
my $is_own = $user eq 'proftpd';
my $home = qr{/[^ ]*?/proftpd-test-\d+-test\d+-\w{10}};

# What the tests of proftpd send, as another server takes it.
sub translated {
    my ($verb, @words) = @_;
    return @_ if $is_own;
    $words[0] = $user if uc($verb) eq 'USER' && @words && $words[0] eq 'proftpd';
    $words[0] = $password if uc($verb) eq 'PASS' && @words && $words[0] eq 'test';
    s{^((?:-\S+ +)*)$home/*}{$1/} for @words;
    return ($verb, @words);
}

# Whether the code is another one of the same first digit.
sub is_same_kind { return shift =~ /^Expected (?:response code )?(\d)\d\d, got (\d)\d\d\b/ && $1 == $2 }

{
    no warnings qw(redefine once);
    my ($command, $response) = (\&Net::Cmd::command, \&Net::Cmd::response);
    *Net::Cmd::command = sub { my $self = shift; ${*$self}{net_cmd_resp} = []; return $command->($self, translated(@_)) };
    # The tests want all replies since the last command, which libnet has had up to 3.11.
    *Net::Cmd::response = sub {
        my $self = shift;
        my @before = @{${*$self}{net_cmd_resp} || []};
        my $kind = $response->($self, @_);
        unshift @{${*$self}{net_cmd_resp}}, @before;
        return $kind;
    };
    my $assert = Test::Unit::TestCase->can('assert');
    *Test::Unit::TestCase::assert = sub {
        my $self = shift;
        return 1 if grep { defined && !ref && (/response message|^Expected '/i || is_same_kind($_)) } @_;
        return $self->$assert(@_);
    };
}

eval "require $module" or die $@;

{
    no warnings qw(redefine once);
    *ProFTPD::TestSuite::Child::assert_transfer_ok = sub {
        my ($self, $code) = @_;
        die "Expected response code 150 or 226, got $code\n" unless grep { $code == $_ } 150, 225, 226;
    };
    my $connect = \&ProFTPD::TestSuite::FTP::new;
    *ProFTPD::TestSuite::FTP::new = sub {
        my ($class, $address, $port, $active, $patience, $command_patience) = @_;
        return $connect->($class, $address, $port, $active, 60, $command_patience // $patience);
    };
}

# The first line of why a test failed, without where it did.
sub reason {
    my $error = shift;
    $error = $error->can('text') && $error->text ? $error->text : "$error" if ref $error;
    my ($line) = grep { /\S/ && !/^not ok|^\s*at / } split /\n/, "$error";
    $line = defined $line ? $line : 'no reason';
    $line =~ s/ \(?at \S+(?: line |:)\d+\)?.*//;
    $line =~ s/\t/ /g;
    return $line;
}

# Runs one test in a process of its own: what it has found.
sub run_test {
    my ($name, $found) = @_;
    my $test = $module->new($name);
    $test->set_up;
    local $SIG{ALRM} = sub { die "it takes more than $limit seconds\n" };
    alarm $limit;
    my $good = eval { $test->$name(); 1 };
    my $error = $@;
    alarm 0;
    my $verdict = $good ? "ok\t" : "failed\t" . reason($error);
    if (open my $file, '<', "$test->{tmpdir}/unsupported") {
        $verdict = "skipped\t" . (<$file> // '');
    }
    print {$found} "$name\t$verdict\n";
    close $found;
    rmtree($test->{tmpdir});
}

$| = 1;
open my $found, '>&', \*STDOUT or die $!;
open STDOUT, '>', '/dev/null' or die $!;
open STDERR, '>', '/dev/null' or die $! unless $ENV{TEST_VERBOSE};
for my $name ($module->list_tests) {
    if ($> == 0 && $name =~ /_eperm/) {
        print {$found} "$name\tskipped\tthe superuser may do it\n";
        next;
    }
    next if $name eq 'testsuite_empty_test' || ($pattern && $name !~ /$pattern/);
    my $child = fork // die $!;
    if (!$child) {
        setpgrp;
        run_test($name, $found);
        exit 0;
    }
    waitpid $child, 0;
    print {$found} "$name\tfailed\tthe test ends with status $?\n" if $?;
    kill 'TERM', -$child;
}
