# The line protocol of the programs in Ruby, and what each peer sends of its own (see ../README.md).
require 'socket'
require 'uri'

BINARY = [0, 1, 254, 255].freeze
PRINTING = Mutex.new

def line(*words)
  PRINTING.synchronize do
    $stdout.puts(words.join(' '))
    $stdout.flush
  end
end

def texts(name)
  return ['a' * 65_535, 'a' * 65_536] if name.start_with?('long')

  name.start_with?('short') ? ['', 'Hello', 'a' * 125, 'a' * 126] : []
end

def short?(name)
  name.start_with?('short')
end

def report(name, is_text, data)
  line(name, is_text ? 'text' : 'binary', data.unpack1('H*'))
end

# Calls `serve` with each connection, or `connect` with each URL that comes, in threads.
def run(serve, connect)
  if ARGV[0] == 'server'
    server = TCPServer.new('127.0.0.1', ARGV[1].to_i)
    server.listen(128)
    line('ready')
    loop { Thread.new(server.accept) { |socket| serve.call(socket) } }
  else
    line('ready')
    threads = $stdin.each_line.map { |url| Thread.new(url.strip) { |given| connect.call(given, given.split('/').last) } }
    threads.each(&:join)
  end
end
