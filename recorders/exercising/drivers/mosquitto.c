/* A driver of libmosquitto: a client that does what it is told on do/#.  mosquitto PORT CLIENT_IDENTIFIER [METHOD] */
#include <mosquitto.h>
#include <mqtt_protocol.h>
#include <stdio.h>
#include <stdlib.h>
#include <string.h>

static void on_connect(struct mosquitto *client, void *user, int reason, int flags, const mosquitto_property *properties) {
    if (reason == 0 && !(flags & 1)) mosquitto_subscribe(client, NULL, "do/#", 2);
}

static void on_message(struct mosquitto *client, void *user, const struct mosquitto_message *message,
                       const mosquitto_property *properties) {
    char text[256] = "", filter[100];
    int qos, count, size, keeps, code = 0;
    if (strcmp(message->topic, "do/it") != 0 || message->payloadlen <= 0 || message->payloadlen > 255) return;
    memcpy(text, message->payload, message->payloadlen);
    keeps = strncmp(text, "keep", 4) == 0;
    if (sscanf(text, keeps ? "keep %d %d %d" : "pub %d %d %d", &qos, &count, &size) == 3) {
        char *payload = malloc(size + 1);
        memset(payload, 'x', size);
        for (int i = 0; i < count; i++) mosquitto_publish(client, NULL, "echo/t", size, payload, qos, keeps);
        free(payload);
    } else if (sscanf(text, "sub %99s %d", filter, &qos) == 2) mosquitto_subscribe(client, NULL, filter, qos);
    else if (sscanf(text, "number %99s %d", filter, &qos) == 2) {
        mosquitto_property *identifier = NULL;
        mosquitto_property_add_varint(&identifier, MQTT_PROP_SUBSCRIPTION_IDENTIFIER, 1);
        mosquitto_subscribe_v5(client, NULL, filter, qos, 0, identifier);
        mosquitto_property_free_all(&identifier);
    }
    else if (sscanf(text, "unsub %99s", filter) == 1) mosquitto_unsubscribe(client, NULL, filter);
    else if (sscanf(text, "bye %x", &code) == 1 || strcmp(text, "bye") == 0) mosquitto_disconnect_v5(client, code, NULL);
}

int main(int count, char **words) {
    if (count != 3 && count != 4) return 3;
    mosquitto_lib_init();
    struct mosquitto *client = mosquitto_new(words[2], false, NULL);
    mosquitto_property *properties = NULL;
    mosquitto_int_option(client, MOSQ_OPT_PROTOCOL_VERSION, MQTT_PROTOCOL_V5);
    mosquitto_property_add_int32(&properties, MQTT_PROP_SESSION_EXPIRY_INTERVAL, 300);
    if (count == 4 && *words[3]) mosquitto_property_add_string(&properties, MQTT_PROP_AUTHENTICATION_METHOD, words[3]);
    mosquitto_connect_v5_callback_set(client, on_connect);
    mosquitto_message_v5_callback_set(client, on_message);
    mosquitto_reconnect_delay_set(client, 1, 1, false);
    if (mosquitto_connect_bind_v5(client, "127.0.0.1", atoi(words[1]), 5, NULL, properties)) return 1;
    return mosquitto_loop_forever(client, -1, 1);
}
