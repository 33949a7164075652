/* Plays rounds with a session, or with a program that only echoes, and compares all that comes back.
 *
 *   client session|echo ROUNDS QUESTIONS AT_ONCE PROGRAM [WORD..]
 *
 * Each round has QUESTIONS questions, each for another message than the one before. AT_ONCE rounds are sent
 * before their answers are waited for. Prints the seconds that they took, and the program's peak of memory after each
 * tenth, in kB.
 */
#include <signal.h>
#include <stdarg.h>
#include <stdio.h>
#include <stdlib.h>
#include <string.h>
#include <sys/wait.h>
#include <time.h>
#include <unistd.h>

enum { MESSAGES = 1000, MOST = 1 << 20 };

struct text {
  size_t length;
  char bytes[MOST];
};

static struct text sent, wanted, got;
static int is_echo, to_program, from_program;
static pid_t program;

static void stop(const char *why) {
  fprintf(stderr, "client: %s\n", why);
  exit(1);
}

static void add(struct text *text, const char *format, ...) {
  va_list values;
  va_start(values, format);
  int count = vsnprintf(text->bytes + text->length, MOST - text->length, format, values);
  va_end(values);
  if (count < 0 || (size_t)count >= MOST - text->length) stop("a round is too large");
  text->length += (size_t)count;
}

static void start(char **words) {
  int input[2], output[2];
  if (pipe(input) || pipe(output)) stop("no pipe");
  program = fork();
  if (program == 0) {
    dup2(input[0], 0);
    dup2(output[1], 1);
    close(input[1]);
    close(output[0]);
    signal(SIGPIPE, SIG_DFL);
    execvp(words[0], words);
    _exit(127);
  }
  close(input[0]);
  close(output[1]);
  to_program = input[1];
  from_program = output[0];
}

/* Sends what is to be sent, and waits for what is wanted. */
static void play(void) {
  ssize_t count;
  for (size_t at = 0; at < sent.length; at += (size_t)count) {
    count = write(to_program, sent.bytes + at, sent.length - at);
    if (count <= 0) stop("the program takes no more");
  }
  for (got.length = 0; got.length < wanted.length; got.length += (size_t)count) {
    count = read(from_program, got.bytes + got.length, wanted.length - got.length);
    if (count <= 0) stop("the program has ended");
  }
  if (memcmp(got.bytes, wanted.bytes, wanted.length)) stop("a wrong answer");
  sent.length = wanted.length = 0;
}

static void add_load(void) {
  add(&sent, "load\tapp\tfr\t-\t%d\n", 2 * MESSAGES);
  for (int it = 0; it < MESSAGES; it++) add(&sent, "msgid \"message %d\"\nmsgstr \"message %d in French\"\n", it, it);
  add(&sent, "go\n");
  add(&wanted, "accepted\t%d\t0\t0\nversion\t1\n", MESSAGES);
}

static void add_round(int questions) {
  static int message = 0;
  size_t before = sent.length;
  if (!is_echo) add(&wanted, "version\t1\n");
  for (int it = 0; it < questions; it++) {
    message = (message + 7) % MESSAGES;
    add(&sent, "ask\t0\tapp\tfr_CA:de\tgettext\tmessage %d\n", message);
    if (!is_echo) add(&wanted, "0\t1\tmessage %d in French\n", message);
  }
  add(&sent, "go\n");
  if (is_echo) {
    memcpy(wanted.bytes + wanted.length, sent.bytes + before, sent.length - before);
    wanted.length += sent.length - before;
  }
}

static long peak(void) {
  char name[64], line[256];
  long kilobytes = 0;
  snprintf(name, sizeof name, "/proc/%d/status", (int)program);
  FILE *file = fopen(name, "r");
  while (file && fgets(line, sizeof line, file)) sscanf(line, "VmHWM: %ld", &kilobytes);
  if (file) fclose(file);
  return kilobytes;
}

static double now(void) {
  struct timespec time;
  clock_gettime(CLOCK_MONOTONIC, &time);
  return (double)time.tv_sec + (double)time.tv_nsec / 1e9;
}

int main(int count, char **words) {
  if (count < 6) stop("usage: client session|echo ROUNDS QUESTIONS AT_ONCE PROGRAM [WORD..]");
  long rounds = atol(words[2]), at_once = atol(words[4]), peaks[10];
  int questions = atoi(words[3]);
  is_echo = strcmp(words[1], "echo") == 0;
  if (rounds < 10 || at_once < 1 || rounds % (10 * at_once)) stop("each tenth has to have whole turns");
  signal(SIGPIPE, SIG_IGN);
  start(words + 5);
  if (!is_echo) {
    add_load();
    play();
  }
  double began = now();
  for (int tenth = 0; tenth < 10; tenth++) {
    for (long turn = 0; turn < rounds / 10 / at_once; turn++) {
      for (long it = 0; it < at_once; it++) add_round(questions);
      play();
    }
    peaks[tenth] = peak();
  }
  printf("%.6f", now() - began);
  for (int tenth = 0; tenth < 10; tenth++) printf(" %ld", peaks[tenth]);
  printf("\n");
  close(to_program);
  int status;
  if (waitpid(program, &status, 0) != program || status) stop("the program ended with a fault");
  return 0;
}
