"""What recording costs: cost.py [ROWS]. This many behaviours over two cowns are spawned, started and ended; a line has the least nanoseconds for one of
them, of several tries."""
import os
import sys
import time

sys.path.insert(0, os.path.join(os.path.dirname(os.path.abspath(__file__)), "..", "..", "recorders"))
import boc_record

TRIES = 15


def once(mode, clock, rows):
    recorder = boc_record.Recorder(mode=mode, clock=clock, memory=1 << 40)
    cowns = [recorder.cown(), recorder.cown()]
    main = recorder.spawn(None, "main")
    recorder.start(main)
    began = time.perf_counter_ns()
    for _ in range(rows):
        row = recorder.spawn(main, "transfer", cowns)
        recorder.start(row)
        recorder.wrote(row, cowns[1])
        recorder.end(row)
    return (time.perf_counter_ns() - began) // rows


def main():
    rows = int(sys.argv[1]) if len(sys.argv) > 1 else 20000
    clocks = {"wall clock": time.perf_counter_ns, "processor time": time.thread_time_ns}
    for mode in (boc_record.PROFILE, boc_record.AUDIT):
        for name, clock in clocks.items():
            print(f"{mode}, {name}: {min(once(mode, clock, rows) for _ in range(TRIES))} ns")


if __name__ == "__main__":
    main()
