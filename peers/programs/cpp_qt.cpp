// Qt WebSockets: QWebSocketServer and QWebSocket; compiled for Qt 5 and Qt 6.
#include "lines.hpp"
#include <QCoreApplication>
#include <QHostAddress>
#include <QSocketNotifier>
#include <QWebSocket>
#include <QWebSocketServer>
#include <unistd.h>

static void say(QWebSocket *socket, const std::string &name) {
    for (const auto &text : texts(name))
        socket->sendTextMessage(QString::fromStdString(text));
    if (is_short(name.c_str())) {
        socket->sendBinaryMessage(QByteArray((const char *)binary_message, sizeof binary_message));
        socket->ping("p");
    }
    if (!texts(name).empty())
        socket->close(QWebSocketProtocol::CloseCodeNormal, "bye");
}

static void talk(QWebSocket *socket, std::string name) {
    QObject::connect(socket, &QWebSocket::textMessageReceived, [name](const QString &text) {
        auto bytes = text.toUtf8();
        message(name.c_str(), 1, bytes.constData(), bytes.size());
    });
    QObject::connect(socket, &QWebSocket::binaryMessageReceived, [name](const QByteArray &bytes) {
        message(name.c_str(), 0, bytes.constData(), bytes.size());
    });
    QObject::connect(socket, &QWebSocket::disconnected, [socket, name] {
        closed(name.c_str(), socket->closeCode());
        socket->deleteLater();
    });
}

static void connect_to(const std::string &url) {
    auto socket = new QWebSocket;
    auto name = last_part(url);
    QObject::connect(socket, &QWebSocket::connected, [socket, name] { say(socket, name); });
    talk(socket, name);
    socket->open(QUrl(QString::fromStdString(url)));
}

static void read_urls() {
    static std::string left;
    char bytes[65536];
    ssize_t count = read(0, bytes, sizeof bytes);
    if (count <= 0)
        exit(0);
    left.append(bytes, count);
    for (size_t end; (end = left.find('\n')) != std::string::npos; left.erase(0, end + 1))
        connect_to(left.substr(0, end));
}

int main(int count, char **words) {
    QCoreApplication application(count, words);
    QWebSocketServer server("peer", QWebSocketServer::NonSecureMode);
    QSocketNotifier urls(0, QSocketNotifier::Read);
    if (!strcmp(words[1], "server")) {
        urls.setEnabled(false);
        server.setMaxPendingConnections(500);
        QObject::connect(&server, &QWebSocketServer::newConnection, [&server] {
            while (auto socket = server.nextPendingConnection()) {
                auto name = last_part(socket->requestUrl().path().toStdString());
                talk(socket, name);
                say(socket, name);
            }
        });
        if (!server.listen(QHostAddress::LocalHost, atoi(words[2])))
            return 1;
    } else {
        QObject::connect(&urls, &QSocketNotifier::activated, read_urls);
    }
    line("", "ready", "");
    return application.exec();
}
