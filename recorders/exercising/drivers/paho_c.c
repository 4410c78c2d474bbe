/* A driver of paho for C (MQTTAsync): a client that does what it is told on do/#.  paho_c PORT CLIENT_IDENTIFIER [METHOD] */
#include <MQTTAsync.h>
#include <stdio.h>
#include <stdlib.h>
#include <string.h>
#include <unistd.h>

static MQTTAsync client;
static volatile int is_over;

static void on_connected(void *context, MQTTAsync_successData5 *data) {
    MQTTAsync_responseOptions options = MQTTAsync_responseOptions_initializer;
    if (!data->alt.connect.sessionPresent) MQTTAsync_subscribe(client, "do/#", 2, &options);
}

static void on_failure(void *context, MQTTAsync_failureData5 *data) { is_over = 1; }

static void obey(const char *text) {
    MQTTAsync_responseOptions options = MQTTAsync_responseOptions_initializer;
    char filter[100];
    int qos, count, size, code = 0, keeps = strncmp(text, "keep", 4) == 0;
    if (sscanf(text, keeps ? "keep %d %d %d" : "pub %d %d %d", &qos, &count, &size) == 3) {
        char *payload = malloc(size + 1);
        memset(payload, 'x', size);
        for (int i = 0; i < count; i++) MQTTAsync_send(client, "echo/t", size, payload, qos, keeps, &options);
        free(payload);
    } else if (sscanf(text, "sub %99s %d", filter, &qos) == 2) MQTTAsync_subscribe(client, filter, qos, &options);
    else if (sscanf(text, "number %99s %d", filter, &qos) == 2) {
        MQTTProperty identifier = {.identifier = MQTTPROPERTY_CODE_SUBSCRIPTION_IDENTIFIER, .value.integer4 = 1};
        MQTTProperties_add(&options.properties, &identifier);
        MQTTAsync_subscribe(client, filter, qos, &options);
        MQTTProperties_free(&options.properties);
    } else if (sscanf(text, "unsub %99s", filter) == 1) MQTTAsync_unsubscribe(client, filter, &options);
    else if (sscanf(text, "bye %x", &code) == 1 || strcmp(text, "bye") == 0) {
        MQTTAsync_disconnectOptions leaving = MQTTAsync_disconnectOptions_initializer5;
        leaving.reasonCode = code;
        MQTTAsync_disconnect(client, &leaving);
        is_over = 1;
    }
}

static int on_message(void *context, char *topic, int length, MQTTAsync_message *message) {
    char text[256] = "";
    if (message->payloadlen < 256) memcpy(text, message->payload, message->payloadlen);
    if (strcmp(topic, "do/it") == 0) obey(text);
    MQTTAsync_freeMessage(&message);
    MQTTAsync_free(topic);
    return 1;
}

int main(int count, char **words) {
    char address[64];
    if (count != 3 && count != 4) return 3;
    snprintf(address, sizeof address, "tcp://127.0.0.1:%s", words[1]);
    MQTTAsync_createOptions creating = MQTTAsync_createOptions_initializer5;
    creating.sendWhileDisconnected = 1;
    MQTTAsync_createWithOptions(&client, address, words[2], MQTTCLIENT_PERSISTENCE_NONE, NULL, &creating);
    MQTTAsync_setCallbacks(client, NULL, NULL, on_message, NULL);
    MQTTAsync_connectOptions options = MQTTAsync_connectOptions_initializer5;
    MQTTProperties properties = MQTTProperties_initializer;
    MQTTProperty expiry = {.identifier = MQTTPROPERTY_CODE_SESSION_EXPIRY_INTERVAL, .value.integer4 = 300};
    MQTTProperties_add(&properties, &expiry);
    if (count == 4 && *words[3]) {
        MQTTProperty method = {.identifier = MQTTPROPERTY_CODE_AUTHENTICATION_METHOD};
        method.value.data.data = words[3], method.value.data.len = strlen(words[3]);
        MQTTProperties_add(&properties, &method);
    }
    options.cleanstart = 0, options.keepAliveInterval = 5, options.connectProperties = &properties;
    options.automaticReconnect = options.minRetryInterval = options.maxRetryInterval = 1;
    options.onSuccess5 = on_connected, options.onFailure5 = on_failure;
    if (MQTTAsync_connect(client, &options) != MQTTASYNC_SUCCESS) return 1;
    while (!is_over) usleep(100000);
    usleep(500000);
    return 0;
}
