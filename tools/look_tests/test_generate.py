"""The generated script as lines, and over a hostile network: held against the program's own `bulk`."""
import subprocess

from look_parts.hostile import DELIVER, EXPIRE, LATE, LOSE, TWICE, fate_of, told_by

from .running import LookTest, found, need, play

NUMBERS = (7, 2, 12, 1)


def summed_up(script):
    """The line by which `bulk` would sum up a script, from the answers of `play`. Its lines are told by `bulk` alone."""
    answers = play(script)
    entries = [answer.split() for answer in answers if answer.startswith("wc ")]
    left = [answer for answer in answers if answer.startswith("quiet ")][-1].split()[1]
    return f"completions {len(entries)} success {sum(words[4] == '0' for words in entries)} left {left}"


def told_by_bulk(numbers):
    ended = subprocess.run([found["program"], "bulk", *map(str, numbers)], capture_output=True, text=True, check=True)
    return ended.stdout.strip()


class Generate(LookTest):
    def test_the_numbers_of_datagrams_are_read_from_answers(self):
        answers = ["sent 4", "took bytes sent 5 to 7", "took acked", "quiet 1", "left a.q paused", "took dupack sent 8"]
        self.assertEqual(list(told_by(answers)), [4, 5, 6, 7, 8])

    def test_fates(self):
        """Of a word the last two digits say whether a datagram is delivered in order, and bits 7 and 8 else what becomes of it."""
        self.assertEqual([fate_of(word, 40) for word in (40, 99, 39, 128, 256, 384)], [DELIVER, DELIVER, LOSE, TWICE, DELIVER, DELIVER])
        self.assertEqual([fate_of(word, 100) for word in (0, 128, 256, 384, 512)], [LOSE, TWICE, LATE, EXPIRE, LOSE])

    def test_the_range_of_hostile(self):
        for percent in (0, 101):
            told = self.one_line("generate", *NUMBERS, "--hostile", percent, program="true")
            self.assertEqual(told, f"--hostile is {percent}, and its range is 1 to 100")

    @need("program")
    def test_the_script_is_the_one_that_bulk_plays(self):
        script = self.look("generate", *NUMBERS)
        self.assertEqual(told_by_bulk(NUMBERS), f"bulk lines {len(script.splitlines())} {summed_up(script)}")

    @need("program")
    def test_a_hostile_network_changes_no_completion(self):
        path = self.folder / "hostile.script"
        self.look("generate", *NUMBERS, "--hostile", 40, "--out", path)
        script = path.read_text()
        self.assertEqual(self.look("generate", *NUMBERS, "--hostile", 40), script)
        self.assertNotEqual(self.look("generate", *NUMBERS, "--hostile", 80), script)
        self.assertTrue(told_by_bulk(NUMBERS).endswith(summed_up(script)))
        lines = iter(script.splitlines())
        self.assertTrue(all(line in lines for line in self.look("generate", *NUMBERS).splitlines()))
        verbs = {line.split()[0] for line in script.splitlines()}
        self.assertLessEqual({"lose", "deliver", "expire"}, verbs)
        self.assertTrue(any(answer.startswith("took dupack") for answer in play(script)))
