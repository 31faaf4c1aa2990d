"""Libraries that stand in front of the C library, as LD_PRELOAD has them."""
import subprocess


def compiled(at, name, source):
    """The path of the library that the machine's C compiler makes of this source, in the folder `at`."""
    with open(f"{at}/{name}.c", "w", encoding="utf-8") as file:
        file.write(source)
    subprocess.run(["cc", "-O1", "-shared", "-fPIC", "-o", f"{at}/{name}.so", f"{at}/{name}.c"], check=True)
    return f"{at}/{name}.so"
