// Poco: Net::WebSocket. It passes frames to its user and answers nothing by itself; the program joins them, and answers
// pings and a Close, as its documentation's example does.
#include "lines.hpp"
#include <Poco/Net/HTTPClientSession.h>
#include <Poco/Net/HTTPRequest.h>
#include <Poco/Net/HTTPRequestHandler.h>
#include <Poco/Net/HTTPRequestHandlerFactory.h>
#include <Poco/Net/HTTPResponse.h>
#include <Poco/Net/HTTPServer.h>
#include <Poco/Net/HTTPServerRequest.h>
#include <Poco/Net/NetException.h>
#include <Poco/Net/WebSocket.h>
#include <iostream>
#include <thread>

using namespace Poco::Net;

static void say(WebSocket &socket, const std::string &name) {
    for (const auto &text : texts(name))
        socket.sendFrame(text.data(), text.size(), WebSocket::FRAME_TEXT);
    if (is_short(name.c_str())) {
        socket.sendFrame(binary_message, sizeof binary_message, WebSocket::FRAME_BINARY);
        socket.sendFrame("p", 1, WebSocket::FRAME_FLAG_FIN | WebSocket::FRAME_OP_PING);
        socket.sendFrame("Hel", 3, WebSocket::FRAME_OP_TEXT);
        socket.sendFrame("lo", 2, WebSocket::FRAME_FLAG_FIN | WebSocket::FRAME_OP_CONT);
    }
    if (!texts(name).empty())
        socket.shutdown(1000, "bye");
}

struct Joined {
    std::string data;
    bool is_text = true;
    int code = 0;
};

// Returns whether the connection goes on.
static bool receive(WebSocket &socket, const std::string &name, Joined &joined) {
    Poco::Buffer<char> buffer(0);
    int flags;
    int count = socket.receiveFrame(buffer, flags);
    int opcode = flags & WebSocket::FRAME_OP_BITMASK;
    if (count == 0 && flags == 0)
        return false;
    if (opcode == WebSocket::FRAME_OP_CLOSE) {
        joined.code = count >= 2 ? (unsigned char)buffer[0] << 8 | (unsigned char)buffer[1] : 0;
        if (texts(name).empty())
            socket.sendFrame(buffer.begin(), count, flags);
        return false;
    }
    if (opcode == WebSocket::FRAME_OP_PING)
        socket.sendFrame(buffer.begin(), count, WebSocket::FRAME_FLAG_FIN | WebSocket::FRAME_OP_PONG);
    if (opcode > WebSocket::FRAME_OP_BINARY)
        return true;
    if (opcode != WebSocket::FRAME_OP_CONT)
        joined.is_text = opcode == WebSocket::FRAME_OP_TEXT;
    joined.data.append(buffer.begin(), count);
    if (flags & WebSocket::FRAME_FLAG_FIN) {
        message(name.c_str(), joined.is_text, joined.data.data(), joined.data.size());
        joined.data.clear();
    }
    return true;
}

static void talk(WebSocket &socket, const std::string &name) {
    Joined joined;
    try {
        say(socket, name);
        while (receive(socket, name, joined))
            ;
    } catch (const std::exception &) {
    }
    try {
        socket.close();
    } catch (const std::exception &) {
    }
    closed(name.c_str(), joined.code);
}

struct Handler : HTTPRequestHandler {
    void handleRequest(HTTPServerRequest &request, HTTPServerResponse &response) override {
        try {
            WebSocket socket(request, response);
            talk(socket, last_part(request.getURI()));
        } catch (const std::exception &) {
        }
    }
};

struct Factory : HTTPRequestHandlerFactory {
    HTTPRequestHandler *createRequestHandler(const HTTPServerRequest &) override { return new Handler; }
};

static void connect_to(std::string url) {
    try {
        HTTPClientSession session("127.0.0.1", std::stoi(url.substr(url.rfind(':') + 1)));
        HTTPRequest request(HTTPRequest::HTTP_GET, "/" + last_part(url), HTTPMessage::HTTP_1_1);
        HTTPResponse response;
        WebSocket socket(session, request, response);
        talk(socket, last_part(url));
    } catch (const std::exception &) {
    }
}

int main(int, char **words) {
    if (!strcmp(words[1], "client")) {
        line("", "ready", "");
        for (std::string url; std::getline(std::cin, url);)
            std::thread(connect_to, url).detach();
        return 0;
    }
    auto parameters = new HTTPServerParams;
    parameters->setMaxThreads(200);
    Poco::ThreadPool pool(2, 200);
    HTTPServer server(new Factory, pool, ServerSocket(SocketAddress("127.0.0.1", std::stoi(words[2]))), parameters);
    server.start();
    line("", "ready", "");
    std::this_thread::sleep_for(std::chrono::hours(24));
}
