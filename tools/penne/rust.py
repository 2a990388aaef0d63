# The original Rust's answers, by the oracle (its README says how it runs the Rust unchanged).
import re, subprocess

class Oracle:
    def __init__(self, path): self.path = path
    def say(self, b, *words):
        r = subprocess.run([self.path, *map(str, words)], input=b, capture_output=True)
        assert r.returncode == 0, (words, b.hex(), r.stderr.decode())
        return r.stdout
    def refused(self, line):
        m = re.match(r'refused (\d+) at (\d+)$', line)
        return m and (int(m[1]), int(m[2]))
    def records(self, lines): return [tuple(map(int, l.split()[1:])) for l in lines if l.startswith('skip ')]
    def scope(self, b, *room):
        """(number, place) of a refusal, or answer, records, depths."""
        lines = self.say(b, 'listing', *room).decode().split('\n')
        no = self.refused(lines[0])
        if no: return no
        answer, depths = self.say(b, 'answer'), [l.split()[2] for l in lines if l.startswith('depth ')]
        assert lines[0] == 'tree %d skipped %d' % (len(answer), len(self.records(lines)))
        return answer, self.records(lines), depths
    def walks(self, b): return self.records(self.say(b, 'listing', '--walks').decode().split('\n'))
    def edges(self, b): return [(int(x), int(y)) for x, y in re.findall(r'\((\d+), (\d+)\)', self.say(b, 'edges').decode())]
    def reads(self, b): return self.refused(self.say(b, 'reads').decode().strip()) or (0, 0)
    def trees(self, n, seed, most=150):
        """So many trees that the oracle makes by itself."""
        return [bytes.fromhex(l.split(' -> ')[0]) for l in self.say(b'', 'vectors', n, seed, '--max', most).decode().splitlines()]
    def readers(self, b, k, most):
        """(number, place) of a refusal, or depth, container, where the name stands and its length."""
        line = self.say(b, 'readers', k, most).decode().strip()
        no = self.refused(line)
        if no: return no
        m = re.match(r'depth (\d+) container (\d) name (?:none|(\d+) (\d+))$', line)
        return int(m[1]), m[2] == '1', (int(m[3] or 0), int(m[4] or 0))
