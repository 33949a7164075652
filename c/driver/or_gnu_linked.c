/* Kobdzila's msgfmt as a part of this program: a call in the place of a second process. tools/build_driver links it in
 * if it was built; otherwise kobdzila_msgfmt is NULL, and msgfmt is started as a program. */
#include "or_gnu.h"

#include <errno.h>
#include <signal.h>
#include <string.h>
#include <unistd.h>

/* The main of Kobdzila's msgfmt. */
int kobdzila_msgfmt(int count, char **words) __attribute__((weak));

static char **arguments;
static size_t argument_count;

/* Rattle's runtime asks for the arguments by this function, under the name rattle_arg. It copies one without its NUL,
 * and returns its length; -1 if there is none, -2 if it is longer than the room. */
long kobdzila_arg(size_t place, char *to, size_t room);

long kobdzila_arg(size_t place, char *to, size_t room) {
    if (place >= argument_count)
        return -1;
    size_t len = strlen(arguments[place]);
    if (len > room)
        return -2;
    memcpy(to, arguments[place], len);
    return (long)len;
}

bool is_linked(void) { return kobdzila_msgfmt != NULL; }

/* A stream whose place a file takes for a while. */
struct place {
    int stream, before; /* the stream's number, and another number for what it was; -1 if it was closed */
};

/* Put a file in a stream's place. False if what is there can't be kept; errno says why. */
static bool take_place(struct place *place, int file, int stream) {
    *place = (struct place){stream, duplicate_above(stream)};
    return (place->before >= 0 || errno == EBADF) && dup2(file, stream) >= 0;
}

static void give_back(const struct place *place) {
    if (place->before < 0) {
        close(place->stream);
        return;
    }
    dup2(place->before, place->stream);
    close(place->before);
}

/* Call msgfmt. It ignores SIGPIPE from then on, which GNU msgfmt must not inherit. What it does after a call that failed,
 * such as removing a file, succeeds, and so leaves errno as it is. */
static struct ending ending_of_call(char **words) {
    struct sigaction before;
    for (argument_count = 0; words[argument_count];)
        argument_count++;
    arguments = words;
    sigaction(SIGPIPE, NULL, &before);
    errno = 0;
    struct ending ending = {.status = kobdzila_msgfmt((int)argument_count, words)};
    ending.cause = errno;
    sigaction(SIGPIPE, &before, NULL);
    return ending;
}

/* The input stays in its place: this program has read it, and GNU msgfmt gets it there as well. */
struct ending call_linked(char **words, struct streams streams) {
    struct place output = {0}, errors = {0};
    take_streams((struct streams){streams.input, -1, -1, streams.extra, streams.extra_as});
    if (!take_place(&errors, streams.errors, STDERR_FILENO))
        return (struct ending){.failure = errno};
    if (streams.output >= 0 && !take_place(&output, streams.output, STDOUT_FILENO)) {
        int cause = errno;
        give_back(&errors);
        return (struct ending){.failure = cause};
    }
    struct ending ending = ending_of_call(words);
    if (streams.output >= 0)
        give_back(&output);
    give_back(&errors);
    return ending;
}
