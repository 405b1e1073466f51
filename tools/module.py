"""What the toolchain's module must be, so that it means the same on every little-endian machine. It is looked at before each compilation,
so that a toolchain that makes modules of another kind is told, and no library comes of it."""
import re

# what is called, besides the library's own functions: arithmetic, a wall that keeps each step of floats as it is written, and what a compiler
# may call for any C program
CALLED = (r'llvm\.(arithmetic\.fence\.f32|memmove\.p0\.p0\.i64|memset\.p0\.i64|memcpy\.p0\.p0\.i64|ctpop\.i\d+|trap|bswap\.i\d+|[us](min|max)\.i\d+|'
          r'fsh[lr]\.i\d+|ct[lt]z\.i\d+)')
# what the library's calls take and return: a number or a pointer in its own place, never a structure
GIVEN = r'(ptr|i1|i8|i16|i32|i64) noundef %\w+'
ANSWERED = r'void|noundef (zeroext i1|i8|i16|i32|i64)'
# what memory is set aside for: characters, numbers, or one pointer, which alone is shorter on some machines
KEPT = r'i8|i16|i32|i64|float|ptr|\[\d+ x i8\]'
# floats of another length, or leave to reckon with floats otherwise than IEEE 754 says
OTHER_FLOATS = r'double|half|bfloat|fp128|x86_fp80|fast|nnan|ninf|nsz|arcp|contract|afn|reassoc|fpmath'
# a structure read from memory has two parts, each a number or a pointer
TWO_PARTS = r'^  (%[\w.]+) = load \{ (i8|i16|i32|i64|ptr), (i8|i16|i32|i64|ptr) \}, ptr (%[\w.]+), align \d+$'
OF_X86 = '"probe-stack"="inline-asm" "stack-probe-size"="3072" "target-cpu"="x86-64"'


class Refused(Exception):
    """Why a library cannot be made."""


def refuse(why):
    raise Refused(f'the toolchain makes modules of another kind than was known: {why}')


def judge_border(text):
    exported = re.findall(r'^define (?!internal)(.*?) ?@(\S+?)\((.*)\) #\d+ \{$', text, re.M)
    if not exported:
        refuse('no function is exported')
    for answer, name, given in exported:
        if not re.fullmatch(ANSWERED, answer) or not all(re.fullmatch(GIVEN, g) for g in given.split(', ') if given):
            refuse(f'{name} takes or returns what differs from machine to machine: {answer} ({given})')


def judge_memory(text):
    """No number is a pointer's; nothing of a pointer's length is moved as characters, since that is 8 on x86-64 alone."""
    for word in ('ptrtoint', 'inttoptr', 'addrspace', 'asm ', 'byval', 'sret', 'thread_local'):
        if re.search(rf'\b{word}', text):
            refuse(f'{word.strip()} is in it')
    for kind in set(re.findall(r'= alloca ([^,\n]+)', text)):
        if not re.fullmatch(KEPT, kind):
            refuse(f'memory is set aside for {kind}')
    if re.search(r'^  store \{', text, re.M) or len(re.findall(r'= load [{<[]', text)) != len(re.findall(TWO_PARTS, text, re.M)):
        refuse('a structure is in memory as a whole')
    for body in text.split('\n}\n'):
        pointers = set(re.findall(r'(%\w+) = alloca ptr', body))
        for moved in re.findall(r'call void @llvm\.mem\w+[^(]*\((.*)\)', body):
            if pointers & set(re.findall(r'%\w+', moved)):
                refuse('a pointer is moved as characters')


def judge_floats(text):
    """Single precision alone, and each step as it is written: then every machine, or its compiler's library, gives the same bits."""
    found = re.search(rf'^  .*\b({OTHER_FLOATS})\b', text, re.M)
    if found:
        refuse(f'{found[1]} is in it')


def judge_calls(text):
    for name in re.findall(r'^declare .*?@(\S+?)\(', text, re.M):
        if not re.fullmatch(CALLED, name):
            refuse(f'it calls {name}')


def judge(text):
    judge_border(text)
    judge_memory(text)
    judge_floats(text)
    judge_calls(text)
    told = re.findall(r'^attributes #\d+ = \{(.*)\}$', text, re.M)
    if not any(OF_X86 in a for a in told) or any('"' in a.replace(OF_X86, '') for a in told):
        refuse(f'its functions are marked {"; ".join(told)}')
