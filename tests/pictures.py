#!/usr/bin/env python3
"""Does a picture tell the truth? tests/pictures.py DRAW EXPECTED HEADS

Draws every item that EXPECTED (lines of name, total, question, arguments, answer) asks a trace of, from HEADS/NAME.bin, by the command DRAW FILE ITEM.
In the SVG it finds what lies on top at each point asked for, by the groups' matrices and clips alone, and compares item and pixel with the answer;
that each arrow turns with its coded picture; and that what is written stands upright.
"""
import re, subprocess, sys, tempfile
import xml.etree.ElementTree as tree

def times(m, n):
    a, b, c, d, e, f = m
    p, q, r, s, t, u = n
    return (a*p + c*q, b*p + d*q, a*r + c*s, b*r + d*s, a*t + c*u + e, b*t + d*u + f)

def matrix(text):
    m = (1, 0, 0, 1, 0, 0)
    for name, numbers in re.findall(r'(\w+)\(([^)]*)\)', text or ''):
        n = [float(x) for x in numbers.split()]
        m = times(m, tuple(n) if name == 'matrix' else (1, 0, 0, 1, *n) if name == 'translate' else (n[0], 0, 0, n[0], 0, 0))
    return m

def back(m, x, y):
    a, b, c, d, e, f = m
    k = a*d - b*c
    return ((d*(x - e) - c*(y - f))/k, (a*(y - f) - b*(x - e))/k)

crooked = []

def like(m, n):
    """Whether m turns and mirrors as n does."""
    k = sum(abs(x) for x in m[:4])/sum(abs(x) for x in n[:4])
    return k > 0 and all(abs(x - k*y) < 1e-6*k for x, y in zip(m[:4], n[:4]))

def boxes(node, m, clips, found):
    """Every coded picture, fill and shut box: its matrix, the clips around it, its size and what it is, lowest first."""
    tag = node.tag.split('}')[1]
    m = times(m, matrix(node.get('transform')))
    if tag == 'svg':
        x, y, w, h = [float(v) for v in (node.get('viewBox') or '0 0 %s %s' % (node.get('width'), node.get('height'))).split()]
        clips = clips + [(m, float(node.get('width')), float(node.get('height')))]
        m = times(m, (1, 0, 0, 1, -x, -y))
    if tag == 'rect' and (node.get('data-item') or node.get('data-fill') or node.get('class') == 'shut'):
        what = ('pixel', node.get('data-item')) if node.get('data-item') else ('fill', node.get('data-fill')) if node.get('data-fill') else ('shut', '')
        found.append((m, clips, float(node.get('width')), float(node.get('height')), what))
    if tag == 'use' and not like(m, found[-1][0]):
        crooked.append('arrow')
    if node.get('class') == 'tag' and not like(m, (1, 0, 0, 1)):
        crooked.append('tag')
    for child in node:
        boxes(child, m, clips, found)

def on_top(found, x, y):
    for m, clips, w, h, what in reversed(found):
        u, v = back(m, x + .5, y + .5)
        if 0 < u < w and 0 < v < h and all(0 < p < cw and 0 < q < ch for p, q, cw, ch in ((*back(c, x + .5, y + .5), cw, ch) for c, cw, ch in clips)):
            return '%s %s %d %d' % (*what, u, v)
    return 'nothing'

def main(draw, expected, heads):
    asked = {}
    for line in open(expected):
        name, total, question, arguments, answer = line.rstrip('\n').split('\t')
        if question == 'trace' and not answer.startswith('refused'):
            item, x, y = arguments.split()
            asked.setdefault((name, int(total), item), []).append((int(x), int(y), answer.rsplit(' ', 1)[0]))
    same = wrong = shut = 0
    for (name, total, item), points in asked.items():
        head = open('%s/%s.bin' % (heads, name), 'rb').read()
        if total > 1 << 24:
            continue
        with tempfile.NamedTemporaryFile() as file:
            file.write(head + bytes(total - len(head)))
            file.flush()
            page = tree.fromstring(subprocess.run([draw, file.name, item], capture_output=True, check=True).stdout)
        found = []
        for group in page.iter('{http://www.w3.org/2000/svg}g'):
            if group.get('id') == 'output':
                boxes(group, (1, 0, 0, 1, 0, 0), [], found)
        for x, y, answer in points:
            got = on_top(found, x, y)
            if got == answer:
                same += 1
            elif got.startswith('shut'):
                shut += 1
            else:
                wrong += 1
                print(name, item, x, y, 'picture:', got, 'trace:', answer)
    print('%d items drawn, %d points as traced, %d under boxes that say they are not gone into, %d wrong, %d arrows or tags crooked' % (len(asked), same, shut, wrong, len(crooked)))
    return wrong + len(crooked) > 0

if __name__ == '__main__':
    sys.exit(main(*sys.argv[1:4]))
