# Mojolicious: a websocket route of its server, and its user agent.
use strict;
use warnings;
use Mojolicious::Lite -signatures;
use Mojo::IOLoop;
use Mojo::IOLoop::Stream;
use Mojo::UserAgent;

$| = 1;
app->log->level('fatal');
my $agent = Mojo::UserAgent->new(max_connections => 0, inactivity_timeout => 0);

sub texts ($name) {
    return ('a' x 65535, 'a' x 65536) if $name =~ /^long/;
    return $name =~ /^short/ ? ('', 'Hello', 'a' x 125, 'a' x 126) : ();
}

sub say_all ($tx, $name) {
    $tx->send({text => $_}) for texts($name);
    if ($name =~ /^short/) {
        $tx->send({binary => "\0\1\xfe\xff"});
        $tx->send([1, 0, 0, 0, 9, 'p']);
        $tx->send([0, 0, 0, 0, 1, 'Hel']);
        $tx->send([1, 0, 0, 0, 0, 'lo']);
    }
    $tx->finish(1000, 'bye') if texts($name);
}

sub talk ($tx, $name) {
    $tx->on(text => sub ($tx, $bytes) { print "$name text ", unpack('H*', $bytes), "\n" });
    $tx->on(binary => sub ($tx, $bytes) { print "$name binary ", unpack('H*', $bytes), "\n" });
    $tx->on(finish => sub ($tx, $code, $reason) { print "$name closed ", $code // '-', "\n" });
    say_all($tx, $name);
}

websocket '/*name' => sub ($c) {
    $c->rendered(101)->inactivity_timeout(0);
    talk($c->tx, $c->param('name'));
};

if ($ARGV[0] eq 'server') {
    Mojo::IOLoop->next_tick(sub { print "ready\n" });
    app->start('daemon', '-l', "http://127.0.0.1:$ARGV[1]", '-i', 0, '-c', 1000);
}
else {
    my $urls = Mojo::IOLoop::Stream->new(\*STDIN);
    my $left = '';
    $urls->timeout(0);
    $urls->on(read => sub ($urls, $bytes) {
        $left .= $bytes;
        while ($left =~ s/^(.*)\n//) {
            my $url = $1;
            my ($name) = $url =~ m{/([^/]*)$};
            $agent->websocket($url => sub ($agent, $tx) { talk($tx, $name) if $tx->is_websocket });
        }
    });
    Mojo::IOLoop->stream($urls);
    print "ready\n";
    Mojo::IOLoop->start;
}
