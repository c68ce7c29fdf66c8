#!/usr/bin/env python3
"""histories.py PROGRAM [SEEDS [FIRST]]: random histories of three folders over one library, through the built program of program.txt.

Each step saves, changes, moves or removes files and directories of a folder, puts a directory in the place of a file and a file in
that of a directory, syncs a folder, or collects. Looked at:
- a sync that ends well leaves the folder as the tree of its head; it pushed exactly where the folder had changed since its last sync,
  and that is just what the folder held;
- what a merge's sides have and no commit behind both has, the merged tree has, under some name;
- each pushed commit is an ancestor of the last head, with its tree and all bytes;
- in the end all three folders hold the tree of the last head.
REFERENCE, if set, is a folder with a module `model` of a reference whose `merge(base, head, pushed)` says what a merge is: then each
merged tree is compared with that, entry by entry. SHOW, if set, prints the lines of each history that fails.
"""
import json, os, random, subprocess, sys

NIL = '0' * 40
NAMES = ['a', 'b', 'c', 'd', 'e']
USERS = ['ann', 'bob', 'cid']
reference = None
if os.environ.get('REFERENCE'):
    sys.path.insert(0, os.environ['REFERENCE'])
    import model as reference


class Lost(Exception):
    pass


def check(holds, why):
    if not holds:
        raise Lost(why)


class Talk:
    def __init__(self, program):
        self.p = subprocess.Popen([program], stdin=subprocess.PIPE, stdout=subprocess.PIPE, text=True, bufsize=1)
        self.lines = []

    def ask(self, *words):
        line = '\t'.join(str(word) for word in words)
        self.p.stdin.write(line + '\n')
        self.p.stdin.flush()
        told = self.p.stdout.readline()
        self.lines.append(line + ' -> ' + told[:200].rstrip('\n'))
        check(told.endswith('\n'), 'the program ended')
        return told.rstrip('\n')

    def listed(self, folder):
        """The files and directories of a folder: {path: text} and {path}."""
        files, dirs = {}, set()
        line = self.ask('list', folder)
        while line != '.':
            words = line.split('\t')
            check(words[0] in ('d', 'f'), 'a listing has ' + line)
            if words[0] == 'd':
                dirs.add(words[1])
            else:
                files[words[1]] = words[2]
            line = self.p.stdout.readline().rstrip('\n')
        return files, dirs

    def end(self):
        self.p.stdin.close()
        self.p.wait()


class Library:
    """What the library has, by its objects."""

    def __init__(self, talk):
        self.talk, self.cache = talk, {}

    def get(self, kind, id):
        if (kind, id) not in self.cache:
            told = self.talk.ask('get', kind, id)
            check(told != '-', 'the library has lost %s %s' % (kind, id))
            self.cache[kind, id] = told
        return self.cache[kind, id]

    def commit(self, id):
        return json.loads(self.get('commit', id))

    def entries(self, root, at=()):
        """Each path of a tree with its entry and, of a file, its text."""
        if root == NIL:
            return
        for entry in json.loads(self.get('fs', root))['dirents']:
            path = at + (entry['name'],)
            if entry['mode'] & 0o170000 == 0o040000:
                yield path, entry, None
                yield from self.entries(entry['id'], path)
            elif entry['id'] == NIL:
                yield path, entry, ''
            else:
                yield path, entry, ''.join(self.get('block', it) for it in json.loads(self.get('fs', entry['id']))['block_ids'])

    def tree_of(self, id):
        files, dirs = {}, set()
        for path, entry, text in self.entries(self.commit(id)['root_id']):
            if text is None:
                dirs.add('/'.join(path))
            else:
                files['/'.join(path)] = text
        return files, dirs

    def parents(self, id):
        c = self.commit(id)
        return [it for it in (c.get('parent_id'), c.get('second_parent_id')) if it]

    def ancestors(self, id):
        found, left = set(), [id]
        while left:
            it = left.pop()
            if it not in found:
                found.add(it)
                left += self.parents(it)
        return found

    def modelled(self, id):
        """The tree of a commit as the reference has trees."""
        return {path: reference.DIR if text is None else reference.File(text.encode(), entry['mode'], entry['mtime'], entry['modifier'])
                for path, entry, text in self.entries(self.commit(id)['root_id'])}


def is_under(path, directory):
    return path.startswith(directory + '/')


def change(rng, talk, folder, counter):
    """One change by hand, over what the folder holds."""
    files, dirs = talk.listed(folder)
    places = [''] + sorted(dirs)
    kind = rng.choice(['new', 'new', 'save', 'save', 'drop', 'dir', 'move', 'cut', 'clash', 'turn'])

    def done(*words):
        check(talk.ask(*words) == 'yes', 'a change by hand was refused: ' + ' '.join(str(word) for word in words))

    def save(path):
        counter[0] += 1
        done('save', folder, path, 'v%d' % counter[0])

    def free(place):
        name = rng.choice(NAMES)
        path = place + '/' + name if place else name
        return path if path not in files and path not in dirs else None

    def cut(directory):
        for path in sorted(files):
            if is_under(path, directory):
                done('drop', folder, path)
        for path in sorted(dirs, reverse=True):
            if path == directory or is_under(path, directory):
                done('drop', folder, path)

    if kind == 'new':
        path = free(rng.choice(places))
        if path:
            save(path)
    elif kind == 'save' and files:
        save(rng.choice(sorted(files)))
    elif kind == 'drop' and files:
        done('drop', folder, rng.choice(sorted(files)))
    elif kind == 'dir':
        path = free(rng.choice(places))
        if path:
            done('dir', folder, path)
            if rng.random() < 0.7:
                save(path + '/' + rng.choice(NAMES))
    elif kind == 'move' and dirs:
        old = rng.choice(sorted(dirs))
        new = free(rng.choice([it for it in places if it != old and not is_under(it, old)]))
        if new:
            done('dir', folder, new)
            for path in sorted(it for it in dirs if is_under(it, old)):
                done('dir', folder, new + path[len(old):])
            for path in sorted(it for it in files if is_under(it, old)):
                done('save', folder, new + path[len(old):], files[path])
            cut(old)
    elif kind == 'cut' and dirs:
        cut(rng.choice(sorted(dirs)))
    elif kind == 'clash' and files:
        path = rng.choice(sorted(files))
        done('drop', folder, path)
        done('dir', folder, path)
        save(path + '/' + rng.choice(NAMES))
    elif kind == 'turn' and dirs:
        path = rng.choice(sorted(dirs))
        cut(path)
        save(path)


def sync(talk, library, folder, moment, pushes, merges, last):
    before = talk.listed(folder)
    said = talk.ask('sync', folder, moment, USERS[folder]).split('\t')
    check(said[0] == 'done', 'a sync of folder %d ended as %s' % (folder, ' '.join(said)))
    head, pushed = said[1], said[2]
    check((pushed != '-') == (before != last.get(folder, ({}, set()))), 'folder %d was pushed and has not changed, or the reverse' % folder)
    last[folder] = after = talk.listed(folder)
    check(after == library.tree_of(head), 'folder %d is not the tree of its head %s' % (folder, head))
    if pushed != '-':
        check(library.tree_of(pushed) == before, 'what was pushed is not what folder %d held' % folder)
        pushes.append(pushed)
        # (the head is the pushed commit, or the merge of it, unless another pushed since, which no one does here)
        if head != pushed:
            check(library.parents(head)[1:] == [pushed], 'the head %s is no merge of what was pushed' % head)
            merges.append((head, pushed))
    return head


def check_merge(library, head, pushed):
    """What one side has and no commit behind both has is in the merged tree; and the tree is the reference's, where there is one."""
    old = library.parents(head)[0]
    known = set()
    for it in library.ancestors(old) & library.ancestors(pushed):
        known |= set(library.tree_of(it)[0].values())
    merged = set(library.tree_of(head)[0].values())
    for side in (old, pushed):
        for path, text in library.tree_of(side)[0].items():
            check(text in known or text in merged, 'the merge %s has lost %s of %s' % (head, text, path))
    if reference:
        base = library.parents(pushed)[0]
        due = reference.merge(library.modelled(base), library.modelled(old), library.modelled(pushed))
        check(due[0] == 'Ok', 'the merge %s was to be refused as %s' % (head, due[0]))
        told = library.modelled(head)
        shown = lambda tree: {path: node if node == reference.DIR else node.full() for path, node in tree.items()}
        check(shown(due[1]) == shown(told), 'the merge %s is not the one of the reference' % head)


def history(program, seed, steps):
    rng, talk = random.Random(seed), Talk(program)
    library, counter, pushes, merges, last, moment = Library(talk), [0], [], [], {}, 100
    try:
        for folder in range(3):
            sync(talk, library, folder, moment, pushes, merges, last)
        for _ in range(steps):
            moment += rng.randrange(3)
            what = rng.random()
            folder = rng.randrange(3)
            if what < 0.68:
                change(rng, talk, folder, counter)
            elif what < 0.97:
                sync(talk, library, folder, moment, pushes, merges, last)
            else:
                said = talk.ask('collect')
                check(said.startswith('collected\t'), 'a collection ended as ' + said)
        for _ in range(2):
            for folder in range(3):
                head = sync(talk, library, folder, moment, pushes, merges, last)
        held = [talk.listed(folder) for folder in range(3)]
        check(held[0] == held[1] == held[2] == library.tree_of(head), 'the folders differ in the end')
        library.cache.clear()
        kept = library.ancestors(head)
        for it in pushes:
            check(it in kept, 'the pushed commit %s is no ancestor of the last head' % it)
            library.tree_of(it)
        for head, pushed in merges:
            check_merge(library, head, pushed)
        return len(pushes), len(merges)
    except Exception:
        if os.environ.get('SHOW'):
            print('\n'.join(talk.lines))
        raise
    finally:
        talk.end()


def main():
    program, seeds = sys.argv[1], int(sys.argv[2]) if len(sys.argv) > 2 else 1000
    first = int(sys.argv[3]) if len(sys.argv) > 3 else 1
    pushes = merges = failed = 0
    for seed in range(first, first + seeds):
        try:
            one = history(program, seed, 60)
            pushes, merges = pushes + one[0], merges + one[1]
        except (Lost, ValueError, KeyError, IndexError, BrokenPipeError) as lost:
            failed += 1
            print('seed %d: %r' % (seed, lost), flush=True)
        if (seed - first) % 100 == 99:
            print('%d histories, %d pushes, %d merges, %d failed' % (seed - first + 1, pushes, merges, failed), flush=True)
    print('%d histories from seed %d, %d pushes, %d merges, %d failed' % (seeds, first, pushes, merges, failed))
    return failed > 0


sys.exit(main())
