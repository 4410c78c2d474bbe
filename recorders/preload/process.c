/* The recording of this process: it starts when the library is loaded, goes on in the children, and stops where
 * something fails. */
#include "preload.h"

#include <errno.h>
#include <limits.h>
#include <pthread.h>
#include <stdio.h>
#include <stdlib.h>
#include <string.h>
#include <sys/stat.h>
#include <sys/syscall.h>
#include <unistd.h>

static atomic_bool is_on;
static pid_t home; /* the process that the table of connections belongs to */
static struct stat standard_error;

bool is_recording(void)
{
    return atomic_load_explicit(&is_on, memory_order_relaxed) && getpid() == home;
}

pid_t recorded_process(void)
{
    return home;
}

void write_error_line(const char *line, int length)
{
    struct stat now;
    if (fstat(STDERR_FILENO, &now) == 0 && now.st_ino == standard_error.st_ino && now.st_dev == standard_error.st_dev)
        syscall(SYS_write, STDERR_FILENO, line, (size_t)length);
}

void stop_recording(const char *what, int error)
{
    char reason[128], text[96], line[PATH_MAX + 256]; /* what fails may be a path */
    if (!atomic_exchange(&is_on, false))
        return;
    const char *why = error ? strerror_r(error, text, sizeof text) : "it isn't recorded";
    unsigned long long when = next_stamp();
    snprintf(reason, sizeof reason, "%llu %ld %s: %s", when, (long)home, what, why);
    mark_stopped(reason);
    int length = snprintf(line, sizeof line, "recording of process %ld stopped: %s: %s\n", (long)home, what, why);
    write_error_line(line, length);
}

/* The child has the parent's connections, and appends to their files. */
static void after_fork_in_child(void)
{
    forget_thread();
    home = getpid();
    number_files_anew();
    free_connections_in_child();
}

__attribute__((constructor)) static void start(void)
{
    int error = errno;
    const char *folder = getenv("MQTT_RECORD_FOLDER");
    if (folder != NULL && use_folder(folder)) {
        home = getpid();
        if (fstat(STDERR_FILENO, &standard_error) != 0)
            memset(&standard_error, 0xff, sizeof standard_error);
        pthread_atfork(hold_connections, free_connections, after_fork_in_child);
        atomic_store(&is_on, !is_marked_stopped());
    }
    errno = error;
}

/* A process that ends closes what it has. */
__attribute__((destructor)) static void finish(void)
{
    leave_descriptors(0, UINT_MAX);
}
