#!/usr/bin/env python3
"""Compiles the module of the proved library for another machine, by the toolchain's own compiler.

usage: tools/retarget.py [--library NAME] FROM TO TRIPLE [WORDS...]    FROM has libNAME.a (libboard.a) for x86-64 with its module beside
                                                                        it (tools/board); TO gets another
       tools/retarget.py --targets

Of the module's text only this is changed: triple and data layout, which the compiler itself tells of the machine; what was said of x86-64;
the wish for small code; that numbers of 8 and 16 bits are returned with nothing above them, as C on most machines expects and on x86-64
does not; and that the two parts of a structure are read one by one, from where they lie on x86-64. What the module must be for this to mean
the same is looked at first (tools/module.py).
"""
import hashlib
import os
import re
import subprocess
import sys
import tempfile

sys.dont_write_bytecode = True
from module import OF_X86, TWO_PARTS, Refused, judge  # noqa: E402

# the machines by the first part of their triples, each with what its library is compiled for if nothing else is said. On Arm floats are the
# compiler's own routines then: not every core has a unit for them, and after a reset it is off
MACHINES = {
    'thumbv6m': ['-mcpu=cortex-m0plus'],
    'thumbv7em': ['-mcpu=cortex-m4', '-mfloat-abi=soft'],
    'thumbv8m.base': ['-mcpu=cortex-m23'],
    'thumbv8m.main': ['-mcpu=cortex-m33', '-mfloat-abi=soft'],
    'armv7': ['-mfloat-abi=soft'],
    'armv7a': ['-mfloat-abi=soft'],
    'aarch64': [],
    'riscv32': ['-march=rv32imac', '-mabi=ilp32'],
    'riscv64': ['-march=rv64gc', '-mabi=lp64d'],
    'wasm32': [],
}
# words of the toolchain's own that name x86-64, its input, its output or how much is done; all others go along
OTHERS = ('--target=', '-march=', '-fPIC', '-O', '--sysroot=')
SMALL = {'-Os': 'optsize', '-Oz': 'optsize minsize'}
# small code has more functions in line than the compiler puts there by itself: these hand over no structure by memory, which is less code and stack
IN_LINE = ['-mllvm', '-inline-threshold=300']


def run(what, *command, **more):
    done = subprocess.run(command, capture_output=True, **more)
    if done.returncode != 0:
        raise Refused(f'{what}: {(done.stderr or done.stdout).decode(errors="replace").strip()}')
    return done.stdout


class Toolchain:
    """The compiler and the archiver of the toolchain that rt is of."""

    def __init__(self):
        told = run('rt doc', 'rt', 'doc').decode().strip()
        self.folder = os.path.join(os.path.dirname(os.path.realpath(told)), 'toolchain', 'bin')
        for tool in ('clang', 'llvm-ar'):
            if not os.access(self.tool(tool), os.X_OK):
                raise Refused(f'the toolchain has another shape than was known: there is no {self.tool(tool)}')

    def tool(self, name):
        return os.path.join(self.folder, name)

    def clang(self, what, *words, **more):
        return run(what, self.tool('clang'), '--no-default-config', *words, **more)


class Module:
    """The module that the library for x86-64 was compiled from, and the words that the toolchain compiled it with."""

    def __init__(self, folder, tools, name='board'):
        self.name, self.archive, self.path = name, os.path.join(folder, f'lib{name}.a'), os.path.join(folder, name + '.bc')
        if not os.path.exists(self.path) or not os.path.exists(self.path[:-2] + 'words'):
            raise Refused(f'{folder} has no {name}.bc: its library was not made by tools/board, or the toolchain has another shape than was known')
        with open(self.path[:-2] + 'words', encoding='utf-8') as f:
            self.words = f.read().splitlines()
        self.tools = tools
        if self.words.count('-c') != 1 or self.words[-1:] == ['-o'] or not any(w.startswith('--target=') for w in self.words) or '-o' not in self.words:
            raise Refused(f'the toolchain compiles in another way than was known: {" ".join(self.words)}')

    def hold(self):
        """The module, compiled as the toolchain did, is the archive's one object to the last character. What held once is marked."""
        with open(self.path, 'rb') as module, open(self.archive, 'rb') as archive:
            both = hashlib.sha256(module.read() + archive.read()).hexdigest()
        mark = self.path[:-2] + 'held'
        if os.path.exists(mark):
            with open(mark, encoding='utf-8') as f:
                if f.read() == both:
                    return
        self.compile_again()
        with open(mark, 'w', encoding='utf-8') as f:
            f.write(both)

    def compile_again(self):
        member = run('the library for x86-64', self.tools.tool('llvm-ar'), 'p', self.archive)
        with tempfile.TemporaryDirectory() as work:
            with open(self.path, 'rb') as f, open(os.path.join(work, self.given()), 'wb') as copy:
                copy.write(f.read())
            words = [w for w in self.words if not w.startswith('--sysroot=')]
            self.tools.clang('the module for x86-64', *words, cwd=work)
            with open(os.path.join(work, self.words[self.words.index('-o') + 1]), 'rb') as f:
                if f.read() != member:
                    raise Refused('the kept module is not the one that the library for x86-64 was compiled from')

    def given(self):
        return next(w for w in self.words if w.endswith('.bc'))

    def text(self):
        target = next(w for w in self.words if w.startswith('--target='))
        return self.tools.clang('the module', target, '-x', 'ir', self.path, '-S', '-emit-llvm', '-O0', '-Xclang', '-disable-llvm-passes', '-o', '-').decode()

    def carried(self):
        """The toolchain's words that go along."""
        at = self.words.index('-o')
        words = [w for i, w in enumerate(self.words) if i not in (at, at + 1) and w not in ('-c', '-x', 'ir', '--no-default-config', self.given())]
        return [w for w in words if not w.startswith(OTHERS)]


def machine(tools, triple, words):
    """What the compiler tells of a machine: its whole triple and its data layout."""
    if triple.split('-')[0] not in MACHINES:
        raise Refused(f'{triple} is none of the little-endian machines that the library is made for: {" ".join(MACHINES)}')
    told = tools.clang(f'the toolchain has no compiler for {triple}', f'--target={triple}', *words, '-x', 'c', '-S', '-emit-llvm', '-o', '-', '/dev/null').decode()
    layout, whole = (re.search(rf'^target {what} = "(.*)"$', told, re.M)[1] for what in ('datalayout', 'triple'))
    if not layout.startswith('e-'):
        raise Refused(f'{triple} is big-endian here, and the library is for little-endian machines only')
    return whole, layout


LENGTHS = {'i8': 1, 'i16': 2, 'i32': 4, 'i64': 8, 'ptr': 8}


def part_by_part(load):
    """A structure of two parts, read from memory in which they lie as on x86-64."""
    made, one, other, source = load.groups()
    place = max(LENGTHS[one], LENGTHS[other])
    return '\n'.join((
        f'  {made}.one = load {one}, ptr {source}, align 1', f'  {made}.place = getelementptr i8, ptr {source}, i64 {place}',
        f'  {made}.other = load {other}, ptr {made}.place, align 1', f'  {made}.half = insertvalue {{ {one}, {other} }} poison, {one} {made}.one, 0',
        f'  {made} = insertvalue {{ {one}, {other} }} {made}.half, {other} {made}.other, 1'))


def retargeted(text, triple, layout, small):
    """The module's text for the machine."""
    text = re.sub(r'^target datalayout = ".*"$', f'target datalayout = "{layout}"', text, flags=re.M)
    text = re.sub(r'^target triple = ".*"$', f'target triple = "{triple}"', text, flags=re.M)
    text = text.replace(OF_X86, small)
    if triple.startswith('riscv64'):
        text = text.replace('\ndefine noundef i32 @', '\ndefine noundef signext i32 @')  # whatever its sign, that machine says
    text = re.sub(r'^define noundef (i8|i16) @', r'define noundef zeroext \1 @', text, flags=re.M)
    return re.sub(TWO_PARTS, part_by_part, text, flags=re.M)


def compiled(tools, module, text, triple, words, to):
    """The library from the module's text."""
    os.makedirs(to, exist_ok=True)
    source, made, archive = (os.path.join(to, name) for name in (module.name + '.ll', module.name + '.o', f'lib{module.name}.a'))
    with open(source, 'w', encoding='utf-8') as f:
        f.write(text)
    tools.clang(f'the module for {triple}', f'--target={triple}', *module.carried(), *words, '-c', '-x', 'ir', source, '-o', made)
    if os.path.exists(archive):
        os.remove(archive)
    run('the archive', tools.tool('llvm-ar'), 'rcsD', archive, made)


def words_for(triple, given):
    """The words of a machine: its own unless others are given, and small code unless another is wished."""
    words = [w for w in MACHINES.get(triple.split('-')[0], []) if not any(g.startswith(w.split('=')[0] + '=') for g in given)]
    levels = [g for g in given if g.startswith('-O')] or ['-Os']
    return words + (IN_LINE if levels[-1] == '-Os' else []) + levels + [g for g in given if g not in levels]


def make(name, source, to, triple, given):
    tools = Toolchain()
    module, words = Module(source, tools, name), words_for(triple, given)
    whole, layout = machine(tools, triple, words)
    module.hold()
    text = module.text()
    judge(text)
    compiled(tools, module, retargeted(text, whole, layout, SMALL.get(next(w for w in reversed(words) if w.startswith('-O')), '')), triple, words, to)


def main():
    words, name = sys.argv[1:], 'board'
    if words[:1] == ['--library']:
        name, words = ''.join(words[1:2]), words[2:]
    if words == ['--targets']:
        print('\n'.join(MACHINES))
    elif len(words) < 3:
        sys.exit(__doc__.strip())
    else:
        make(name, *words[:3], words[3:])


if __name__ == '__main__':
    try:
        main()
    except Refused as why:
        sys.exit(f'tools/board: {why}')
