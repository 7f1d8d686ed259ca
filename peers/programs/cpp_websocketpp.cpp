// websocketpp: its server and client endpoints over asio.
#include "lines.hpp"
#include <iostream>
#include <thread>
#include <websocketpp/client.hpp>
#include <websocketpp/config/asio_no_tls.hpp>
#include <websocketpp/config/asio_no_tls_client.hpp>
#include <websocketpp/server.hpp>

using websocketpp::connection_hdl;
using server = websocketpp::server<websocketpp::config::asio>;
using client = websocketpp::client<websocketpp::config::asio_client>;

template <class Connection> static void say(Connection connection, const std::string &name) {
    for (const auto &text : texts(name))
        connection->send(text, websocketpp::frame::opcode::text);
    if (is_short(name.c_str())) {
        connection->send(binary_string(), websocketpp::frame::opcode::binary);
        connection->ping("p");
    }
    if (!texts(name).empty())
        connection->close(1000, "bye");
}

template <class Endpoint> static void handle(Endpoint &endpoint) {
    auto name_at = [&endpoint](connection_hdl handle) {
        return last_part(endpoint.get_con_from_hdl(handle)->get_resource());
    };
    endpoint.clear_access_channels(websocketpp::log::alevel::all);
    endpoint.clear_error_channels(websocketpp::log::elevel::all);
    endpoint.init_asio();
    endpoint.set_open_handler([&endpoint, name_at](connection_hdl handle) {
        say(endpoint.get_con_from_hdl(handle), name_at(handle));
    });
    endpoint.set_message_handler([name_at](connection_hdl handle, typename Endpoint::message_ptr got) {
        bool is_text = got->get_opcode() == websocketpp::frame::opcode::text;
        message(name_at(handle).c_str(), is_text, got->get_payload().data(), got->get_payload().size());
    });
    endpoint.set_close_handler([&endpoint, name_at](connection_hdl handle) {
        closed(name_at(handle).c_str(), endpoint.get_con_from_hdl(handle)->get_remote_close_code());
    });
}

static void serve(int port) {
    server endpoint;
    handle(endpoint);
    endpoint.set_reuse_addr(true);
    endpoint.listen(boost::asio::ip::tcp::endpoint(boost::asio::ip::make_address("127.0.0.1"), port));
    endpoint.start_accept();
    line("", "ready", "");
    endpoint.run();
}

static void connect(client &endpoint, const std::string &url) {
    websocketpp::lib::error_code error;
    auto connection = endpoint.get_connection(url, error);
    if (!error)
        endpoint.connect(connection);
}

int main(int, char **words) {
    if (!strcmp(words[1], "server")) {
        serve(std::stoi(words[2]));
        return 0;
    }
    client endpoint;
    handle(endpoint);
    endpoint.start_perpetual();
    std::thread loop([&endpoint] { endpoint.run(); });
    line("", "ready", "");
    for (std::string url; std::getline(std::cin, url);)
        endpoint.get_io_service().post([&endpoint, url] { connect(endpoint, url); });
    loop.join();
}
