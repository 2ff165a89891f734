#!/usr/bin/env python3
"""Simulates the benches of examples/rtl with each simulator that is installed, and compares what their taps write.

    tools/run_rtl.py

For each of a bench's bugs the trace has to be examples/NAME.trace to the byte, and the one that tools/vcd_to_trace.py makes
of the waveform too. It says nothing where all agree; the exit status is 1 where a trace differs. Icarus Verilog and
Verilator are Debian's packages iverilog and verilator, the latter with g++ and make; on standard error it says what is
missing.
"""

import pathlib
import shutil
import subprocess
import sys
import tempfile

TOP = pathlib.Path(__file__).resolve().parent.parent
RTL, TAP = TOP / "examples" / "rtl", TOP / "tools" / "axinet_tap.sv"
# Of each bench its files, how vcd_to_trace.py is told of its port, and the traces of its bugs from 0 on.
BENCHES = {
    "bench": (("memory.sv", "bench.sv"), "--port", ("rtl_good", "rtl_early_response", "rtl_short_read", "rtl_withdrawn_address")),
    "lite_bench": (("lite_bench.sv",), "--lite", ("rtl_lite_good", "rtl_lite_second_response")),
}
NEEDED = {"icarus": ("iverilog", "vvp"), "verilator": ("verilator", "g++", "make")}


def run(words, folder):
    subprocess.run([str(word) for word in words], cwd=folder, check=True, stdout=subprocess.DEVNULL, stderr=subprocess.PIPE)


def build(simulator, bench, folder):
    """The words that run the bench."""
    sources = [TAP, *(RTL / name for name in BENCHES[bench][0])]
    if simulator == "icarus":
        run(["iverilog", "-g2012", "-s", bench, "-o", bench, *sources], folder)
        return ["vvp", bench]
    # What Verilator has of its own is compiled once, since all benches have one folder.
    run(["verilator", "--binary", "--trace", "-Wno-fatal", "-CFLAGS", "-O0", "--build-jobs", "2", "--prefix", f"V{bench}",
         "--top", bench, *sources], folder)
    return [folder / "obj_dir" / f"V{bench}"]


def trace_of_waveform(bench, folder):
    words = [TOP / "tools" / "vcd_to_trace.py", f"{bench}.vcd", "--clock", f"{bench}.aclk", "--reset", f"{bench}.aresetn",
             BENCHES[bench][1], f"{bench}.dut."]
    return subprocess.run([str(word) for word in words], cwd=folder, check=True, stdout=subprocess.PIPE).stdout


def differs(simulator, bench, name, folder):
    """Whether the tap or the waveform of the last run has another trace than the stored one."""
    wanted = (TOP / "examples" / f"{name}.trace").read_bytes()
    found = {"tap": (folder / f"{bench}.trace").read_bytes(), "waveform": trace_of_waveform(bench, folder)}
    wrong = [what for what, trace in found.items() if trace != wanted]
    for what in wrong:
        print(f"{simulator}: the trace of the {what} differs from examples/{name}.trace")
    return bool(wrong)


def fails(simulator, bench, folder):
    try:
        simulation, wrong = build(simulator, bench, folder), 0
        for number, name in enumerate(BENCHES[bench][2]):
            run([*simulation, f"+bug={number}"], folder)
            wrong += differs(simulator, bench, name, folder)
        return wrong > 0
    except subprocess.CalledProcessError as error:
        print(f"{simulator}, {bench}: {error}\n{(error.stderr or b'').decode(errors='replace')[:1000]}")
        return True


def main():
    failed = 0
    for simulator, programs in NEEDED.items():
        if missing := [name for name in programs if shutil.which(name) is None]:
            print(f"run_rtl.py: not installed: {', '.join(missing)}; runs by {simulator} are left out", file=sys.stderr)
            continue
        with tempfile.TemporaryDirectory() as folder:
            failed += sum(fails(simulator, bench, pathlib.Path(folder)) for bench in BENCHES)
    return 1 if failed else 0


sys.exit(main())
