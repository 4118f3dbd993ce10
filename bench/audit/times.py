"""Prints how long `nexus audit` takes, beside what reading the same journal takes and what `nexus script` takes at some points.

usage: times.py PROGRAM KIND ENTRIES RECORDS RUNS SAMPLES
"""
import os
import subprocess
import sys
import tempfile

import inputs

program, kind = sys.argv[1:3]
count, number, runs, samples = (int(word) for word in sys.argv[3:])


def run(command, text, wanted):
    """The processor seconds and the peak memory, in MiB, of a run that writes what is wanted, or ends in it."""
    with tempfile.TemporaryFile() as source, tempfile.TemporaryFile() as told:
        source.write(text.encode())
        source.seek(0)
        process = subprocess.Popen([program, command], stdin=source, stdout=told)
        _, status, used = os.wait4(process.pid, 0)
        process.returncode = os.waitstatus_to_exitcode(status)
        told.seek(0)
        output = told.read().decode()
    if process.returncode != 0 or wanted not in output:
        sys.exit(f"{command} ended with {process.returncode} and wrote {output[:80]!r}")
    return used.ru_utime + used.ru_stime, used.ru_maxrss / 1024


def least(command, text, wanted):
    """The least of each of some runs."""
    made = [run(command, text, wanted) for _ in range(runs)]
    return min(seconds for seconds, _ in made), min(memory for _, memory in made)


lines, needed = inputs.entries(kind, count)
made = inputs.points(needed, len(lines), number)
seconds, memory = least("audit", inputs.audit(lines, made), f"audited {number}\n")
empty, empty_memory = least("audit", inputs.audit(lines, []), "audited 0\n")
prefixes = [run("script", inputs.script(lines, at), f"allowed {at} 0 0\n")[0] for at in made[:samples]]
scripts = sum(prefixes) / len(prefixes) * number
print(f"{kind}: {len(lines)} entries, {number} records")
print(f"  audit            {seconds:9.2f} s  {memory:7.0f} MiB")
print(f"  without records  {empty:9.2f} s  {empty_memory:7.0f} MiB")
print(f"  for the records  {seconds - empty:9.2f} s  {memory / empty_memory:7.2f} times the memory")
print(f"  by script        {scripts:9.0f} s  {scripts / seconds:7.0f} times as long, from {len(prefixes)} of its runs")
