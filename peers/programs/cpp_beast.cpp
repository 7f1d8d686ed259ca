// Boost.Beast: websocket::stream over a blocking socket, and a thread for each connection.
#include "lines.hpp"
#include <boost/asio.hpp>
#include <boost/beast.hpp>
#include <boost/beast/websocket.hpp>
#include <iostream>
#include <thread>

namespace beast = boost::beast;
namespace websocket = beast::websocket;
using tcp = boost::asio::ip::tcp;
using stream = websocket::stream<tcp::socket>;

static void say(stream &socket, const std::string &name) {
    socket.text(true);
    for (const auto &text : texts(name))
        socket.write(boost::asio::buffer(text));
    if (is_short(name.c_str())) {
        socket.binary(true);
        socket.write(boost::asio::buffer(binary_message));
        socket.ping("p");
        socket.text(true);
        socket.write_some(false, boost::asio::buffer("Hel", 3));
        socket.write_some(true, boost::asio::buffer("lo", 2));
    }
    if (!texts(name).empty())
        socket.close(websocket::close_reason(websocket::close_code::normal, "bye"));
}

static void talk(stream &socket, const std::string &name) {
    try {
        say(socket, name);
        for (;;) {
            beast::flat_buffer buffer;
            socket.read(buffer);
            message(name.c_str(), socket.got_text(), buffer.data().data(), buffer.size());
        }
    } catch (const std::exception &) {
    }
    closed(name.c_str(), socket.reason().code);
}

static void serve(tcp::socket given) {
    try {
        stream socket(std::move(given));
        beast::flat_buffer buffer;
        beast::http::request<beast::http::string_body> request;
        beast::http::read(socket.next_layer(), buffer, request);
        socket.accept(request);
        talk(socket, std::string(request.target()).substr(1));
    } catch (const std::exception &) {
    }
}

static void connect_to(std::string url) {
    try {
        boost::asio::io_context context;
        stream socket(context);
        auto host = url.substr(5, url.rfind('/') - 5);
        auto port = std::stoi(host.substr(host.find(':') + 1));
        socket.next_layer().connect(tcp::endpoint(boost::asio::ip::make_address("127.0.0.1"), port));
        socket.handshake(host, "/" + last_part(url));
        talk(socket, last_part(url));
    } catch (const std::exception &) {
    }
}

int main(int, char **words) {
    if (!strcmp(words[1], "client")) {
        line("", "ready", "");
        for (std::string url; std::getline(std::cin, url);)
            std::thread(connect_to, url).detach();
        return 0;
    }
    boost::asio::io_context context;
    tcp::acceptor acceptor(context, tcp::endpoint(boost::asio::ip::make_address("127.0.0.1"), std::stoi(words[2])));
    line("", "ready", "");
    for (;;)
        std::thread(serve, acceptor.accept()).detach();
}
