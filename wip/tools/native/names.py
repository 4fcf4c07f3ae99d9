import re
# the names of functions in a callgrind file, which gives each a number and writes the name once: nm(text behind fn= or cfn=)
class Names:
    def __init__(self):
        self.names = {}
    def __call__(self, s):
        m = re.match(r'\((\d+)\)(?: (.*))?$', s)
        if not m: return s
        if m.group(2): self.names[m.group(1)] = m.group(2)
        return self.names.get(m.group(1), s)
