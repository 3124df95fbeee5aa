"""Commands that one process runs one after another: what a program ends with is kept, and the process becomes the next one.

On a machine with other work a new process waits for its turn some times, and so does who waits for it. A chain waits for one
process alone, so a hundred calls take hardly longer than one. Needs gcc, for the library that stands before `_exit`.
"""

import os
import signal
import subprocess
from pathlib import Path

from running import kill

MOST_STEPS = 1000  # of a chain; the library reads 256 bytes for each

FOLLOWING = r"""
#define _GNU_SOURCE
#include <fcntl.h>
#include <stdio.h>
#include <stdlib.h>
#include <string.h>
#include <sys/syscall.h>
#include <unistd.h>

enum { MOST_BYTES = 1 << 18, MOST_WORDS = 16 };

static char text[MOST_BYTES];

static void become(const char *source, const char *sink, char **words) {
  int in = open(source, O_RDONLY), out = open(sink, O_WRONLY | O_CREAT | O_TRUNC, 0600);
  dup2(in, 0);
  dup2(out, 1);
  close(in);
  close(out);
  execv(words[0], words);
}

// Keeps the status, and goes on with the step at CHAIN_AT: how many words it has, the words, the document and the sink.
static void follow(int status) {
  const char *steps = getenv("CHAIN"), *told = getenv("CHAIN_TOLD"), *from = getenv("CHAIN_AT");
  if (!steps || !told || !from) return;
  unsigned char byte = status;
  int file = open(told, O_WRONLY | O_APPEND);
  if (write(file, &byte, 1) != 1) return;
  close(file);
  file = open(steps, O_RDONLY);
  long length = read(file, text, MOST_BYTES);
  close(file);
  char *at = text + atol(from), *words[MOST_WORDS + 1] = {0}, next[32];
  if (at >= text + length) return;
  int count = atoi(at);
  for (int word = 0; word < count && word < MOST_WORDS; word++) words[word] = at += strlen(at) + 1;
  char *source = at + strlen(at) + 1, *sink = source + strlen(source) + 1;
  snprintf(next, sizeof next, "%ld", (long)(sink + strlen(sink) + 1 - text));
  setenv("CHAIN_AT", next, 1);
  become(source, sink, words);
}

static void ended(int status, void *none) { follow(status); }

__attribute__((constructor)) static void begin(void) { on_exit(ended, NULL); }

void _exit(int status) {
  follow(status);
  for (;;) syscall(SYS_exit_group, status);
}
"""


def built(folder):
    """Compiles the library, and returns its file."""
    source, library = f"{folder}/following.c", f"{folder}/following.so"
    Path(source).write_text(FOLLOWING)
    subprocess.run(["gcc", "-shared", "-fPIC", "-O2", "-w", "-o", library, source], check=True)
    return library


class Chain:
    """Calls of programs on documents one after another, in the main thread of a process."""

    def __init__(self, folder, library, limit=3600):
        self.folder, self.limit, self.child = folder, limit, None
        self.steps, self.told = f"{folder}/steps", f"{folder}/told"
        self.environment = {**os.environ, "LD_PRELOAD": library, "CHAIN": self.steps, "CHAIN_TOLD": self.told}
        signal.signal(signal.SIGALRM, lambda *_: kill(self.child))

    def answers(self, calls):
        """Returns the exit status and the output of each call, which is a document and a command. One that a signal ends, or
        that is killed at the limit, has its number as a negative status, and the others are made all the same."""
        files = {text: f"{self.folder}/document{number}" for number, text in enumerate({text for text, _ in calls})}
        for text, file in files.items():
            Path(file).write_bytes(text)
        found, steps = [], [(files[text], words) for text, words in calls]
        while len(found) < len(steps):
            found += self.first_answers(steps[len(found) :][:MOST_STEPS])
        return found

    def sink(self, number):
        """Returns the file that gets the output of a command."""
        return f"{self.folder}/written{number}"

    def first_answers(self, steps):
        """Returns the answers of the commands up to the first one that a signal ends."""
        parts = [[str(len(words)), *words, file, self.sink(number)] for number, (file, words) in enumerate(steps)]
        texts = [b"".join(os.fsencode(it) + b"\0" for it in part) for part in parts]
        Path(self.steps).write_bytes(b"".join(texts))
        Path(self.told).write_bytes(b"")
        ended = self.end_of_chain(*steps[0], len(texts[0]))
        statuses = [*Path(self.told).read_bytes()]
        statuses += [ended] if len(statuses) < len(steps) else []
        return [(status, Path(self.sink(number)).read_bytes()) for number, status in enumerate(statuses)]

    def end_of_chain(self, file, words, following):
        """Runs the chain from its first command on, and returns how its last one ended."""
        sink = (os.POSIX_SPAWN_OPEN, 1, self.sink(0), os.O_WRONLY | os.O_CREAT | os.O_TRUNC, 0o600)
        errors = (os.POSIX_SPAWN_OPEN, 2, os.devnull, os.O_WRONLY, 0)
        streams = [(os.POSIX_SPAWN_OPEN, 0, file, os.O_RDONLY, 0), sink, errors]
        environment = {**self.environment, "CHAIN_AT": str(following)}
        self.child = os.posix_spawn(words[0], words, environment, file_actions=streams)
        signal.setitimer(signal.ITIMER_REAL, self.limit)
        _, status = os.waitpid(self.child, 0)
        signal.setitimer(signal.ITIMER_REAL, 0)
        return os.waitstatus_to_exitcode(status)
