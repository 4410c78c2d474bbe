/* A driver of paho for C (MQTTClient): a client that does what it is told on do/#.  paho_c_sync PORT CLIENT_IDENTIFIER [METHOD] */
#include <MQTTClient.h>
#include <stdio.h>
#include <stdlib.h>
#include <string.h>
#include <unistd.h>

static MQTTClient client;
static int is_over;

static void obey(const char *text) {
    char filter[100];
    int qos, count, size, code = 0, keeps = strncmp(text, "keep", 4) == 0;
    if (sscanf(text, keeps ? "keep %d %d %d" : "pub %d %d %d", &qos, &count, &size) == 3) {
        char *payload = malloc(size + 1);
        memset(payload, 'x', size);
        for (int i = 0; i < count; i++) MQTTClient_publish5(client, "echo/t", size, payload, qos, keeps, NULL, NULL);
        free(payload);
    } else if (sscanf(text, "sub %99s %d", filter, &qos) == 2) MQTTClient_subscribe5(client, filter, qos, NULL, NULL);
    else if (sscanf(text, "number %99s %d", filter, &qos) == 2) {
        MQTTProperties properties = MQTTProperties_initializer;
        MQTTProperty identifier = {.identifier = MQTTPROPERTY_CODE_SUBSCRIPTION_IDENTIFIER, .value.integer4 = 1};
        MQTTProperties_add(&properties, &identifier);
        MQTTClient_subscribe5(client, filter, qos, NULL, &properties);
        MQTTProperties_free(&properties);
    } else if (sscanf(text, "unsub %99s", filter) == 1) MQTTClient_unsubscribe5(client, filter, NULL);
    else if (sscanf(text, "bye %x", &code) == 1 || strcmp(text, "bye") == 0) {
        MQTTClient_disconnect5(client, 1000, code, NULL);
        is_over = 1;
    }
}

static void receive(void) {
    MQTTClient_message *message = NULL;
    char text[256] = "", *topic = NULL;
    int length;
    MQTTClient_receive(client, &topic, &length, &message, 100);
    if (message == NULL) return;
    if (strcmp(topic, "do/it") == 0 && message->payloadlen < 256) memcpy(text, message->payload, message->payloadlen);
    MQTTClient_freeMessage(&message);
    MQTTClient_free(topic);
    obey(text);
}

static void connect_it(char *method) {
    MQTTClient_connectOptions options = MQTTClient_connectOptions_initializer5;
    MQTTProperties properties = MQTTProperties_initializer;
    MQTTProperty expiry = {.identifier = MQTTPROPERTY_CODE_SESSION_EXPIRY_INTERVAL, .value.integer4 = 300};
    MQTTProperties_add(&properties, &expiry);
    MQTTProperty own = {.identifier = MQTTPROPERTY_CODE_AUTHENTICATION_METHOD};
    own.value.data = (MQTTLenString){.len = method != NULL ? strlen(method) : 0, .data = method};
    if (own.value.data.len > 0) MQTTProperties_add(&properties, &own);
    options.cleanstart = 0, options.keepAliveInterval = 5, options.reliable = 0, options.connectTimeout = 3;
    MQTTResponse answer = MQTTClient_connect5(client, &options, &properties, NULL);
    int is_accepted = answer.reasonCode == MQTTREASONCODE_SUCCESS;
    MQTTResponse_free(answer);
    MQTTProperties_free(&properties);
    if (is_accepted && !options.returned.sessionPresent) MQTTClient_subscribe5(client, "do/#", 2, NULL, NULL);
    if (!is_accepted) sleep(1);
}

int main(int count, char **words) {
    char address[64];
    if (count != 3 && count != 4) return 3;
    snprintf(address, sizeof address, "tcp://127.0.0.1:%s", words[1]);
    MQTTClient_createOptions creating = MQTTClient_createOptions_initializer;
    creating.MQTTVersion = MQTTVERSION_5;
    MQTTClient_createWithOptions(&client, address, words[2], MQTTCLIENT_PERSISTENCE_NONE, NULL, &creating);
    while (!is_over) {
        if (!MQTTClient_isConnected(client)) connect_it(words[3]);
        else receive();
    }
    return 0;
}
