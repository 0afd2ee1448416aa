"""The examples of docs/look.md: what a command is said to write is what it writes."""
import os
import subprocess

from look_parts.program import TOP, VARIABLE

from .running import LookTest, found, need

PAGE = TOP / "docs" / "look.md"
PROMPT, DOTS = "    $ ", "    .."


def examples():
    """The commands of the page, each with the lines that follow it; the sessions of the prompt are left out."""
    told, command = [], None
    for line in PAGE.read_text().splitlines():
        if line.startswith(PROMPT):
            command = None if line.endswith(" -i") else (line[len(PROMPT):], [])
            told += [command] if command else []
        elif command and line.startswith("    "):
            command[1].append(line[4:] if line != DOTS else None)
        elif command and line:
            command = None
    return told


class Page(LookTest):
    def run_command(self, command):
        env = {**os.environ, VARIABLE: found["program"]}
        command = command.replace("/tmp/", f"{self.folder}/")
        ended = subprocess.run(["bash", "-c", command], stdout=subprocess.PIPE, stderr=subprocess.DEVNULL, env=env, cwd=TOP, check=False)
        return [line.rstrip() for line in ended.stdout.decode().replace(f"{self.folder}/", "/tmp/").splitlines()]

    @need("program")
    def test_each_example_is_followed(self):
        count = 0
        for command, lines in examples():
            if command.startswith("tshark") and not found["tshark"]:
                continue
            with self.subTest(command):
                wrote = self.run_command(command)
                # Two dots stand for lines left out: what stands between them is a run of lines.
                for part in self.parts(lines):
                    self.assertIn("\n".join(part) + "\n", "\n".join(wrote) + "\n")
                if None not in lines:
                    self.assertEqual(wrote, lines)
            count += 1
        self.assertGreaterEqual(count, 9)

    @staticmethod
    def parts(lines):
        parts = [[]]
        for line in lines:
            if line is None:
                parts.append([])
            else:
                parts[-1].append(line)
        return [part for part in parts if part]
