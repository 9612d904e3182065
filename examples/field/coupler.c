/* coupler [PORT]: the coupler of the motor, as coupler.py, by libmodbus' server:

       cc -o build/coupler examples/field/coupler.c $(pkg-config --cflags --libs libmodbus)

   Discrete inputs are START, STOP_OK, RELAY_OK, coils RUN, GREEN, RED. It takes the words start, stop, trip and good on
   standard input (start and stop are pressed for half a second) and prints its coils when they change. */
#include <modbus.h>
#include <stdio.h>
#include <stdlib.h>
#include <string.h>
#include <sys/select.h>
#include <time.h>
#include <unistd.h>

enum { START, STOP_OK, RELAY_OK, INPUTS };

static double now(void) {
    struct timespec t;
    clock_gettime(CLOCK_MONOTONIC, &t);
    return t.tv_sec + t.tv_nsec / 1e9;
}

/* Obeys a word: the moment at which buttons are let go. */
static double obey(const char *word, uint8_t *inputs, double release) {
    if (!strcmp(word, "trip")) inputs[RELAY_OK] = 0;
    if (!strcmp(word, "good")) inputs[RELAY_OK] = 1;
    if (!strcmp(word, "start")) inputs[START] = 1;
    if (!strcmp(word, "stop")) inputs[STOP_OK] = 0;
    return word[0] == 's' ? now() + 0.5 : release;
}

static void show(const uint8_t *coils, uint8_t *shown) {
    if (!memcmp(coils, shown, 3)) return;
    memcpy(shown, coils, 3);
    printf("RUN GREEN RED = %d %d %d\n", coils[0], coils[1], coils[2]);
    fflush(stdout);
}

int main(int count, char **words) {
    modbus_t *bus = modbus_new_tcp("127.0.0.1", count > 1 ? atoi(words[1]) : 1502);
    modbus_mapping_t *cells = modbus_mapping_new(3, INPUTS, 0, 0);
    int server = bus ? modbus_tcp_listen(bus, 4) : -1, keys = 1;
    double release = 0;
    uint8_t shown[3] = {0}, request[MODBUS_TCP_MAX_ADU_LENGTH];
    fd_set known;
    if (!cells || server == -1) return 1;
    cells->tab_input_bits[STOP_OK] = cells->tab_input_bits[RELAY_OK] = 1;
    FD_ZERO(&known);
    FD_SET(server, &known);
    for (;;) {
        fd_set ready = known;
        struct timeval wait = {0, 20000};
        if (keys) FD_SET(0, &ready);
        select(FD_SETSIZE, &ready, NULL, NULL, &wait);
        if (now() >= release) cells->tab_input_bits[START] = 0, cells->tab_input_bits[STOP_OK] = 1;
        if (keys && FD_ISSET(0, &ready)) {
            char line[64] = {0};
            keys = read(0, line, sizeof line - 1) > 0;
            if (keys) release = obey(strtok(line, " \n") ? line : "", cells->tab_input_bits, release);
        }
        for (int file = 1; file < FD_SETSIZE; file++) {
            if (!FD_ISSET(file, &ready)) continue;
            if (file == server) {
                int made = modbus_tcp_accept(bus, &server);
                if (made != -1) FD_SET(made, &known);
                continue;
            }
            modbus_set_socket(bus, file);
            int length = modbus_receive(bus, request);
            if (length > 0) modbus_reply(bus, request, length, cells);
            else if (length == -1) FD_CLR(file, &known), close(file);
            show(cells->tab_bits, shown);
        }
    }
}
