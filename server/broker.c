/* What begins and ends the service of a broker. */
#define _GNU_SOURCE

#include "broker.h"

#include <stdlib.h>
#include <time.h>

#include "messages.h"

int64_t now(struct broker *broker)
{
    struct timespec time;
    if (clock_gettime(CLOCK_MONOTONIC, &time) != 0)
        give_up(broker, "clock_gettime");
    return (int64_t)time.tv_sec * 1000 + time.tv_nsec / 1000000;
}

/* The program holds the store, so an old socket is nobody's. */
void start_service(struct broker *broker)
{
    broker->program.is_ready = true;
    if (broker->is_stopping)
        return;
    if (!open_listener(&broker->listener, &broker->options)) {
        broker->program.is_wrong = true;
        stop(broker);
        return;
    }
    write_served_file(&broker->served_file, broker->options.store, broker->listener.fd);
    print_line("ready", 5);
    notify(&broker->notify_socket, "READY=1");
}

void stop(struct broker *broker)
{
    if (broker->is_stopping)
        return;
    broker->is_stopping = true;
    remove_served_file(&broker->served_file, broker->options.store);
    close_listener(&broker->listener, broker->options.path);
    notify(&broker->notify_socket, "STOPPING=1");
}

_Noreturn void give_up(struct broker *broker, const char *what)
{
    say_errno(what);
    remove_served_file(&broker->served_file, broker->options.store);
    remove_socket_file(&broker->listener, broker->options.path);
    exit(EXIT_FAILURE);
}
