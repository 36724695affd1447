"""What the scripts of bench/ share: running a program that prints its best time, and compiling one of Rust's std."""
import os
import subprocess


def program_seconds(program, *words):
    """A program's best time, and what it printed."""
    run = subprocess.run([program, *map(str, words)], capture_output=True, text=True)
    last = run.stderr.strip().splitlines()
    return (int(last[-1]) / 1e6 if run.returncode == 0 and last else None), run.stdout.strip()


def rust_program(folder, text):
    """A program of Rust's std, compiled into a folder; nothing where there is no rustc."""
    source, program = os.path.join(folder, "std.rs"), os.path.join(folder, "std")
    with open(source, "w") as file:
        file.write(text)
    try:
        subprocess.run(["rustc", "-O", "-C", "target-cpu=native", "-o", program, source], check=True)
    except (OSError, subprocess.CalledProcessError):
        return None
    return program


def milliseconds(value):
    return "       -" if value is None else f"{value * 1e3:8.1f}"
