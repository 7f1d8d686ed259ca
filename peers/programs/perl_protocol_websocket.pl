# Protocol::WebSocket: as its documentation's examples use it, over a socket and a process for each connection. It
# answers nothing by itself; the program answers pings and a Close, and drops the connection where the module dies.
use strict;
use warnings;
use IO::Socket::INET;
use Protocol::WebSocket::Client;
use Protocol::WebSocket::Frame;
use Protocol::WebSocket::Handshake::Client;
use Protocol::WebSocket::Handshake::Server;

$| = 1;
my @limit = $ARGV[0] eq 'unlimited' ? (max_payload_size => 0) : ();
shift @ARGV if @limit;
$SIG{CHLD} = 'IGNORE';
$SIG{PIPE} = 'IGNORE';

sub texts {
    my ($name) = @_;
    return ('a' x 65535, 'a' x 65536) if $name =~ /^long/;
    return $name =~ /^short/ ? ('', 'Hello', 'a' x 125, 'a' x 126) : ();
}

# The processes share standard output: a lock keeps their lines apart.
sub report {
    open my $lock, '<', $0 or die;
    flock $lock, 2;
    print join(' ', @_), "\n";
    close $lock;
}

sub put {
    my ($socket, $masked, $type, $bytes) = @_;
    syswrite $socket, Protocol::WebSocket::Frame->new(
        buffer => $bytes, type => $type, masked => $masked, max_payload_size => 0)->to_bytes;
}

sub say_all {
    my ($socket, $masked, $name) = @_;
    put($socket, $masked, 'text', $_) for texts($name);
    if ($name =~ /^short/) {
        put($socket, $masked, 'binary', "\0\1\xfe\xff");
        put($socket, $masked, 'ping', 'p');
    }
    put($socket, $masked, 'close', pack('n', 1000) . 'bye') if texts($name);
}

# Returns the code of a Close, or undef while there is none.
sub handle {
    my ($socket, $masked, $name, $frame, $bytes) = @_;
    if ($frame->is_ping) { put($socket, $masked, 'pong', $bytes) }
    elsif ($frame->is_close) {
        put($socket, $masked, 'close', $bytes) unless texts($name);
        return length $bytes > 1 ? unpack 'n', $bytes : '-';
    }
    elsif ($frame->is_text) { report($name, 'text', unpack 'H*', $bytes) }
    elsif ($frame->is_binary) { report($name, 'binary', unpack 'H*', $bytes) }
    return undef;
}

sub talk {
    my ($socket, $handshake, $name) = @_;
    my $masked = defined $name;
    my $buffer = '';
    syswrite $socket, $handshake->to_string if $masked;
    until ($handshake->is_done) {
        sysread $socket, $buffer, 65536, length $buffer or return;
        $handshake->parse($buffer) or return;
    }
    syswrite $socket, $handshake->to_string unless $masked;
    $name //= substr $handshake->req->resource_name, 1;
    say_all($socket, $masked, $name);
    my $frame = Protocol::WebSocket::Frame->new(@limit);
    my $code;
    eval {
        while (!defined $code) {
            $frame->append($buffer);
            while (!defined $code and defined(my $bytes = $frame->next_bytes)) {
                $code = handle($socket, $masked, $name, $frame, $bytes);
            }
            last if defined $code;
            sysread $socket, $buffer, 65536 or last;
        }
    };
    close $socket;
    report($name, 'closed', $code // '-');
}

if ($ARGV[0] eq 'server') {
    my $server = IO::Socket::INET->new(LocalAddr => '127.0.0.1', LocalPort => $ARGV[1], Listen => 128, ReuseAddr => 1);
    print "ready\n";
    while (my $socket = $server->accept) {
        next if fork;
        talk($socket, Protocol::WebSocket::Handshake::Server->new, undef);
        exit;
    }
}
else {
    print "ready\n";
    while (my $url = <STDIN>) {
        chomp $url;
        next if fork;
        my ($port, $name) = $url =~ m{:(\d+)/([^/]*)$};
        my $socket = IO::Socket::INET->new(PeerAddr => '127.0.0.1', PeerPort => $port);
        talk($socket, Protocol::WebSocket::Handshake::Client->new(url => $url), $name);
        exit;
    }
}
