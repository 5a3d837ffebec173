"""Asks shells at a terminal what they complete: the line as it is after a key, with all matches put into it."""
import os
import pty
import re
import select
import shutil
import signal
import time

SECONDS = 60
# a key inserts all matches; another one prints the line between two signs
ALL, TELL = "\x18a", "\x18t"
TOLD = re.compile(rb"<<<(.*?)>>>", re.DOTALL)
READY = b"<<<ready>>>"
BASH = """
PS1= PS2=
bind 'set bell-style none' 'set completion-query-items 0' 'set enable-bracketed-paste off'
bind '"\\C-xa": insert-completions' 'set completion-ignore-case off'
tell() { printf '<<<%s>>>\\n' "$READLINE_LINE"; READLINE_LINE= READLINE_POINT=0; }
bind -x '"\\C-xt": tell'
source SCRIPT
printf '<<<%s>>>\\n' ready
"""
ZSH = """
PS1= PS2= PROMPT_EOL_MARK= zle_highlight=(none)
unsetopt beep prompt_cr
fpath=(SCRIPT $fpath)
autoload -Uz compinit && compinit -u -D
zle -C all-matches complete-word _generic
zstyle ':completion:all-matches:*' completer _all_matches _complete
zstyle ':completion:all-matches:*' insert true
zstyle ':completion:all-matches:*' old-matches false
tell() { print -r -- "<<<$BUFFER>>>"; BUFFER= }
zle -N tell
bindkey '^Xa' all-matches
bindkey '^Xt' tell
printf '<<<%s>>>\\n' ready
"""


class Shell:
    """An interactive shell in a folder, with a completion. It goes with the block that it is used in."""

    def __init__(self, words, setup, folder):
        self.words, self.setup, self.folder, self.seen = words, setup, folder, b""

    def __enter__(self):
        script = f"{self.folder}.{self.words[0]}"
        with open(script, "w", encoding="utf-8") as file:
            file.write(self.setup)
        self.child, self.terminal = pty.fork()
        if not self.child:
            os.chdir(self.folder)
            os.execvpe(self.words[0], self.words, {"PATH": os.environ["PATH"], "TERM": "dumb", "HOME": "/nonexistent", "LC_ALL": "C"})
        self.send(f" . {script}\n")
        self.wait(lambda: READY in self.seen)
        return self

    def __exit__(self, *_):
        os.kill(self.child, signal.SIGKILL)
        os.waitpid(self.child, 0)
        os.close(self.terminal)

    def send(self, text):
        os.write(self.terminal, text.encode())

    def wait(self, is_over):
        """Reads what the shell prints until that is over."""
        end = time.monotonic() + SECONDS
        while not is_over():
            if time.monotonic() > end or not select.select([self.terminal], [], [], SECONDS)[0]:
                raise TimeoutError(f"{self.words[0]} printed {self.seen[-500:]!r}")
            self.seen += os.read(self.terminal, 65_536)

    def completed(self, line):
        """The line with all matches of its last word."""
        self.seen = b""
        self.send(line + ALL + TELL)
        self.wait(lambda: TOLD.search(self.seen))
        return TOLD.search(self.seen)[1].decode()


def bash(script, folder):
    """Bash with a completion's file."""
    return Shell(["bash", "--norc", "--noprofile", "-i"], BASH.replace("SCRIPT", script), folder)


def zsh(functions, folder):
    """Zsh with a folder of completions; None if there is no zsh."""
    return Shell(["zsh", "-f", "-i"], ZSH.replace("SCRIPT", functions), folder) if shutil.which("zsh") else None
