"""compare.py JUDGE COUNT SEED PROGRAM-WORDS -- PLAIN-WORDS: gives both programs each input and holds what they print to the judge's answer."""
import concurrent.futures
import os
import re
import struct
import subprocess
import sys
import tempfile
import time

sys.dont_write_bytecode = True
import cases

SHOWN = 10


def by_program(words, data, slow=False):
    """What the program prints and how it ended; `slow` gives the input in pieces, so that reads come back short."""
    if not slow:
        ran = subprocess.run(words, input=data, capture_output=True)
        return ran.stdout, ran.stderr, ran.returncode
    with tempfile.TemporaryFile() as out, tempfile.TemporaryFile() as err:
        ran = subprocess.Popen(words, stdin=subprocess.PIPE, stdout=out, stderr=err, bufsize=0)
        step = max(1, len(data) // 7)
        try:
            for i in range(0, len(data), step):
                ran.stdin.write(data[i:i + step])
                time.sleep(0.02)
            ran.stdin.close()
        except BrokenPipeError:
            pass  # it has seen that the input is too long
        status = ran.wait()
        out.seek(0)
        err.seek(0)
        return out.read(), err.read(), status


def without_tests(answer):
    """The judge's answer as the plain program has to print it: the counts' line, the second of an accepted answer, has no tests."""
    if not answer.startswith(b"size "):
        return answer
    size, counts, rest = answer.split(b"\n", 2)
    return b"\n".join([size, counts.partition(b" tests ")[0], rest])


def check_figures(answers):
    """The judge's answers to the figures of docs/RULES.md, held to what that page says of them."""
    for name, data, says in cases.figures():
        text = answers[data].decode()
        rows = "\n".join(text.split("\n")[2:2 + struct.unpack_from(">H", data, 5)[0]])
        if says not in (text, rows):
            sys.exit(f"tests/reading: the judge and docs/RULES.md differ at {name}: {text!r}")


def check_reach(answers):
    """The inputs have to reach every kind of answer, or the comparison says little."""
    text = b"".join(answers.values()).decode()
    wanted = [f"refused {n} {place}\n" for n, place in [(1, 0), (2, 0), (5, 0), (5, 1), (5, 2), (5, 3), (5, 4), (6, 0), (6, 15), (9, 0), (9, 3)]]
    missing = [w.strip() for w in wanted if w not in text]
    missing += [letter for letter in ".PEBCD" if not re.search(rf"^[.PEBCD]*[{letter}][.PEBCD]*$", text, re.M)]
    tests = {*re.findall(r"^protected \d+ error \d+ corner \d+ tests (\d+)$", text, re.M)}
    missing += [f"tests of {digits} digits" for digits in range(1, 7) if digits not in map(len, tests)] + ["tests 0"] * ("0" not in tests)
    places = set(re.findall(r"^bad input (\d+)$", text, re.M))
    if missing or len(places) < 100 or "65536" not in places:
        sys.exit(f"tests/reading: the inputs do not reach {', '.join(missing) or 'enough places'}")
    return len(places)


def main():
    judge, count, seed, words = sys.argv[1], int(sys.argv[2]), int(sys.argv[3]), sys.argv[4:]
    cut = words.index("--")
    programs = [("program", words[:cut], lambda answer: answer), ("plain program", words[cut + 1:], without_tests)]
    environment = {name: value for name, value in os.environ.items() if not name.startswith("QEMU_")}
    os.environ.clear()
    os.environ.update(environment)
    begin = time.time()
    with open("examples/three.bin", "rb") as fields, open("examples/three.txt", "rb") as text:
        example, said = fields.read(), text.read()
    tried = [("examples/three.bin", example)] + cases.all_cases(count, seed)
    answers = dict(zip((data for _, data in tried), cases.judged(judge, [data for _, data in tried])))
    if answers[example] != said:
        sys.exit("tests/reading: examples/three.txt is not the judge's answer")
    check_figures(answers)
    places = check_reach(answers)
    large = [(f"{name}, in pieces", data, True) for name, data in tried if len(data) > 60000 or name in ("P", "65536 bytes", "good cut at 100")]
    inputs = [(name, data, False) for name, data in tried] + large
    work = [(program, *given) for given in inputs for program in programs]
    bad = 0
    with concurrent.futures.ThreadPoolExecutor(os.cpu_count() or 1) as pool:
        for ((who, _, of), name, data, _), got in zip(work, pool.map(lambda w: by_program(w[0][1], w[2], w[3]), work)):
            wanted = of(answers[data])
            if got != (wanted, b"", 0):
                bad += 1
                if bad <= SHOWN:
                    print(f"tests/reading: {name}: {len(data)} bytes {data[:200].hex()}")
                    print(f"  the judge: {wanted[:200]!r}")
                    print(f"  the {who}: {got[0][:200]!r}" + ("" if got[1:] == (b"", 0) else f", status {got[2]}, error output {got[1][:200]!r}"))
    accepted = sum(a.startswith(b"size") for a in answers.values())
    refused = sum(a.startswith(b"refused") for a in answers.values())
    print(f"tests/reading: {len(inputs)} inputs ({accepted} accepted, {refused} refused, {len(tried) - accepted - refused} bad at {places} places, "
          f"{len(large)} again in pieces) to the program and to the plain one, {bad} of {len(work)} answers differ, {time.time() - begin:.0f} s")
    sys.exit(1 if bad else 0)


main()
