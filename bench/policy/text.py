"""Writes the text of the greatest policy: text.py FILE.

64 principals make 4,096 entries each, a mix of all ten events, whose lines come to nearly the 524,288 bytes that each may add.
"""
import sys

PRINCIPALS = 64
EACH = 4096
BYTES = 524_288


def padded(front, number, room):
    """Returns a line of about so many bytes that begins so and ends in a formula with this number."""
    formula = f"ok({number})"
    while len(front) + len(formula) + len(" and p(1, x)") < min(room, len(front) + 1000):
        formula += " and p(1, x)"
    return front + formula


def events(principal, labels, numbers):
    """Yields the entries of a principal, without session and name; `labels` are the numbers of those that it holds."""
    name = f"p{principal}"
    room = yield
    for turn in range(EACH):
        cycle, part = turn // 16, turn % 16
        thing = f"o{principal}_{cycle % 64}"
        if part == 0 and cycle < 64:
            line = f"object {thing}"
        elif part in (1, 14):
            line = padded(f"goal read_{cycle} {thing} : {name} says ", cycle, room)
        elif part in (3, 15):
            line = f"proof read_{cycle}_{part} {thing} : proof 2 ; 1 true_i : true ; end"
        elif part == 5:
            line = f"bind {name}.clock_{cycle} {cycle % 16}"
        elif part == 7:
            line = f"transfer {labels.pop()} p{(principal + 1) % PRINCIPALS}"
        elif part == 9:
            line = f"delete {labels.pop()}"
        elif part == 10:
            line = f"unbind {name}.clock_{cycle}"
        elif part == 11:
            line = f"noproof read_{cycle}_3 {thing}"
        elif part == 12:
            line = f"nogoal read_{cycle} {thing}"
        else:
            line = padded(f"say {name} : ", numbers[0], room)
            labels.append(numbers[0])
        room = yield line


def main():
    lines = ["nexus 2"]
    lines += [f"principal p{principal} secret_{principal}" for principal in range(PRINCIPALS)]
    lines += [f"authority {port} clock" for port in range(16)]
    numbers = [0]
    makers = [events(principal, [], numbers) for principal in range(PRINCIPALS)]
    for maker in makers:
        next(maker)
    used = [0] * PRINCIPALS
    for turn in range(EACH):
        for principal, maker in enumerate(makers):
            numbers[0] += 1
            front = f"7 p{principal} "
            room = BYTES * (turn + 1) // EACH - used[principal] - len(front) - 1
            line = front + maker.send(room)
            used[principal] += len(line) + 1
            lines.append(line)
    lines.append("end")
    with open(sys.argv[1], "w") as file:
        file.writelines(line + "\n" for line in lines)


main()
