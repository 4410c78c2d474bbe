// A driver of paho for C++: a client that does what it is told on do/#.  paho_cpp PORT CLIENT_IDENTIFIER [METHOD]
#include <mqtt/async_client.h>
#include <atomic>
#include <sstream>
#include <string>
#include <thread>

static std::atomic<bool> is_over{false};

static void obey(mqtt::async_client &client, const std::string &text) {
    std::istringstream words(text);
    std::string what, filter;
    int qos = 0, count = 0, size = 0, code = 0;
    words >> what;
    if ((what == "pub" || what == "keep") && words >> qos >> count >> size)
        for (int i = 0; i < count; i++) client.publish("echo/t", std::string(size, 'x'), qos, what == "keep");
    else if (what == "sub" && words >> filter >> qos) client.subscribe(filter, qos);
    else if (what == "number" && words >> filter >> qos)
        client.subscribe(filter, qos, mqtt::subscribe_options(), {{mqtt::property::SUBSCRIPTION_IDENTIFIER, 1}});
    else if (what == "unsub" && words >> filter) client.unsubscribe(filter);
    else if (what == "bye") {
        words >> std::hex >> code;
        client.disconnect(mqtt::disconnect_options_builder().reason_code(mqtt::ReasonCode(code)).finalize());
        is_over = true;
    }
}

int main(int count, char **words) {
    if (count != 3 && count != 4) return 3;
    mqtt::create_options creating(MQTTVERSION_5, 1000);
    mqtt::async_client client("tcp://127.0.0.1:" + std::string(words[1]), words[2], creating, nullptr);
    client.set_message_callback([&](mqtt::const_message_ptr message) {
        if (message->get_topic() != "do/it") return;
        try {
            obey(client, message->to_string());
        } catch (const mqtt::exception &) {
        }
    });
    auto options = mqtt::connect_options_builder()
                       .mqtt_version(MQTTVERSION_5)
                       .clean_start(false)
                       .keep_alive_interval(std::chrono::seconds(5))
                       .automatic_reconnect(std::chrono::seconds(1), std::chrono::seconds(1))
                       .finalize();
    mqtt::properties properties{{mqtt::property::SESSION_EXPIRY_INTERVAL, 300}};
    if (count == 4 && *words[3]) properties.add({mqtt::property::AUTHENTICATION_METHOD, words[3]});
    options.set_properties(properties);
    try {
        auto token = client.connect(options);
        token->wait();
        if (!token->get_connect_response().is_session_present()) client.subscribe("do/#", 2)->wait();
    } catch (const mqtt::exception &) {
        return 1;
    }
    while (!is_over) std::this_thread::sleep_for(std::chrono::milliseconds(100));
    std::this_thread::sleep_for(std::chrono::milliseconds(500));
    return 0;
}
