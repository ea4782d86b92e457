"""The command program build/refcli as a Python object."""
import os
import subprocess

BUILD = os.path.join(os.path.dirname(os.path.abspath(__file__)), "build")


def text(value):
    """An argument: hex for bytes, "-" for none."""
    if value is None or value == "" or value == b"":
        return "-"
    return value.hex() if isinstance(value, bytes) else str(value)


class Refcli:
    def __init__(self, modulus=None, build=BUILD):
        """With a modulus, the build whose hash is cut to that many values."""
        name = "refcli" if modulus is None else "refcli_weak%d" % modulus
        self.build = os.path.abspath(build)
        self.process = subprocess.Popen([os.path.join(build, name)], stdin=subprocess.PIPE,
                                        stdout=subprocess.PIPE, text=True)

    def __call__(self, *arguments):
        """One command; the answer's words."""
        line = " ".join(text(a) for a in arguments)
        self.process.stdin.write(line + "\n")
        self.process.stdin.flush()
        answer = self.process.stdout.readline()
        if not answer:
            raise RuntimeError("refcli stopped at: " + line[:200])
        return answer.split()

    def close(self):
        """The program's status."""
        self.process.communicate()
        return self.process.returncode

    def stop(self):
        self.process.kill()
        self.process.communicate()


def numbers(word):
    return [int(x) for x in word.split(",")]


def pair_answer(words):
    """The pair reader's answer in the vectors' form."""
    if words[0] == "refused":
        return {"refused": int(words[1])}
    finding, answer = int(words[1]), numbers(words[2])
    kind, e, i, length, k, b, d, _ = answer
    if finding == 1:
        used = {"kind": kind, "e": e, "i": i, "length": length, "input1": words[3], "input2": words[4]}
        zeros = [k, b, d]
    elif finding == 2:
        used, zeros = {"secret": words[3]}, [kind, e, i, length, k, b, d]
    elif finding == 3:
        used, zeros = {"e": e, "k": k, "b": b, "d": d}, [kind, i, length]
    else:
        used, zeros = {"e": e, "uv": numbers(words[3])}, [kind, i, length, k, b, d]
    if any(zeros) or answer[7] != 0:
        raise ValueError("finding %d with the answer %s" % (finding, answer))
    return {"finding": finding, **used}
