"""What the scripts apply of all engines share: changes lines of an unpacked engine, and copies files into it.

    apply ENGINE LIBRARY     makes the unpacked ENGINE play over the library
    apply ENGINE --trial     adds to that the bots and records of check, hard and measure

LIBRARY is bindings/ of a built clone, or the folder that an installed library is in, /usr/local for one. Each
place must be there as often as it is said, or nothing is written: then it is another version of the engine."""
import os, shutil, sys

AFTER, INSTEAD, END = 'after', 'instead', 'end'
COMMON = os.path.dirname(os.path.abspath(__file__))
SHARED = ['zmg_doom.inc', 'zmg_netgame.c', 'zmg_netgame.h']

def first_of(*paths):
    found = [path for path in paths if os.path.exists(path)]
    return found[0] if found else sys.exit(f'apply: no {paths[0]}')

def change(engine, edits, mark):
    """Each edit is a file, what is looked for, what is put after it or in its place, and how often it is there.
    mark: what no file has that was not changed before."""
    texts, lines = {}, 0
    for name, where, old, new, times in edits:
        path = os.path.join(engine, name)
        text = texts[path] if path in texts else open(path).read()
        if mark in text and path not in texts:
            sys.exit(f'apply: {path} was changed before')
        if old and text.count(old) != times:
            sys.exit(f'apply: {path} has {old!r} {text.count(old)} times, not {times}: '
                'another version of the engine')
        texts[path] = text + new if where == END else text.replace(old, old + new if where == AFTER else new)
        lines += times * new.strip('\n').count('\n') + times
    for path, text in texts.items():
        open(path, 'w').write(text)
    print(f'apply: {lines} lines added or changed in {len(texts)} files of the engine')

def main(own, folder, program, files, edits, trial_files, trial_edits, links=''):
    """own: where our files are; folder: where they go to; program: CMake's name of what they are part of;
    links: how it is linked, and with what else."""
    words = [word for word in sys.argv[1:] if word != '--trial']
    trial = len(words) < len(sys.argv) - 1
    if len(words) != 2 - trial or any(word.startswith('-') for word in words):
        sys.exit(__doc__)
    engine = words[0]
    from_ = {name: os.path.join(own, name) for name in (trial_files if trial else files)}
    if trial:
        edits, mark = trial_edits, 'zmg_trial'
        from_['zmg_trial.inc'] = os.path.join(COMMON, 'zmg_trial.inc')
    else:
        library, mark = os.path.abspath(words[1]), 'zmg'
        header = first_of(f'{library}/c/zirmegat.h', f'{library}/include/zirmegat.h')
        archive = first_of(f'{library}/out/libzirmegat.a', f'{library}/lib/libzirmegat.a')
        from_ |= {name: os.path.join(COMMON, name) for name in SHARED}
        from_ |= {name: first_of(f'{library}/c/{name}', f'{library}/share/zirmegat/examples/c/{name}')
            for name in ('zmg_udp.c', 'zmg_udp.h')}
        edits = edits + [(f'{folder}/CMakeLists.txt', END, '', f'target_include_directories({program} PRIVATE '
            f'"{os.path.dirname(header)}")\ntarget_link_libraries({program} {links}"{archive}")\n', 1)]
    sources = ' '.join(name for name in from_ if name.endswith('.c'))
    edits = edits + [(f'{folder}/CMakeLists.txt', END, '', f'target_sources({program} PRIVATE {sources})\n', 1)]
    change(engine, edits, mark)
    for name, path in from_.items():
        shutil.copy(path, os.path.join(engine, folder, name))
