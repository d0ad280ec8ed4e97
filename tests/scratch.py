"""Scratch copies of crates for tests: their types and specs, without the functions and their proofs."""
import glob
import os
import re
import shutil

ITEM = re.compile(r"^(?:pub (?:enum|struct) \w+ \{\n(?:.*\n)*?\}|pub mod \w+;|use [\w:]+;)$", re.M)


def types_only(text):
    """The declared types and modules of a source file; functions, methods and derives are left out."""
    return "// Types alone.\n" + "\n".join(m.group(0) for m in ITEM.finditer(text)) + "\n"


def cited(text):
    """The law files of the definition that a file cites."""
    return re.findall(r"Rattle\.definition\.proofs\.([A-Z]\w*)", text)


def with_cited(source, names):
    """The named files of proofs/, and those that they cite."""
    found, left = [], list(names)
    while left:
        name = left.pop()
        if name not in found:
            found.append(name)
            with open(f"{source}/proofs/{name}.antt") as f:
                left += cited(f.read())
    return sorted(found)


def copy_tidy(root, folder):
    """Copies the definition of tidying (document 02, item 1) to folder/crates/tidy."""
    source, target = root + "/crates/tidy", folder + "/crates/tidy"
    os.makedirs(target + "/src")
    with open(source + "/src/lib.rt") as f, open(target + "/src/lib.rt", "w") as out:
        why = re.search(r"^pub enum Untidied \{\n(?:.*\n)*?\}\n", f.read(), re.M).group(0)
        out.write("use definition::replies::Refusal;\n" + why)
    os.makedirs(target + "/specs")
    names = ["Reply", "Rules", "Tidy", "Write"]
    for name in names:
        shutil.copy(f"{source}/specs/{name}.antt", target + "/specs")
    modules(target + "/specs", names)


def copy_types(source, target):
    """Copies src/ of a crate, its types alone, without what they derive."""
    os.makedirs(target + "/src")
    for name in os.listdir(source + "/src"):
        with open(source + "/src/" + name) as f:
            text = types_only(f.read())
        with open(target + "/src/" + name, "w") as f:
            f.write(text)


def copy_definition(root, folder, proofs=()):
    """Copies the definition to folder/crates/definition, with the named files of its proofs/ and what they cite."""
    source, target = root + "/crates/definition", folder + "/crates/definition"
    shutil.copytree(source + "/specs", target + "/specs")
    copy_types(source, target)
    proofs = with_cited(source, proofs)
    if proofs:
        os.makedirs(target + "/proofs")
        with open(target + "/proofs/Lib.antt", "w") as f:
            f.write("".join("pub mod %s\n" % name for name in proofs))
        for name in proofs:
            shutil.copy(source + "/proofs/%s.antt" % name, target + "/proofs")


def modules(folder, names):
    """The root of a folder of antt files."""
    with open(folder + "/Lib.antt", "w") as f:
        f.write("".join("pub mod %s\n" % name for name in sorted(names)))


def below(root, crate):
    """By crate, the files of specs/ that the specs of a crate cite, and those that these cite."""
    found, left = {}, [(crate, os.path.basename(path)[: -len(".antt")]) for path in glob.glob(f"{root}/crates/{crate}/specs/[A-Z]*.antt")]
    while left:
        crate, name = left.pop()
        if name not in found.setdefault(crate, set()) and name != "Lib":
            found[crate].add(name)
            with open(f"{root}/crates/{crate}/specs/{name}.antt") as f:
                cites = re.findall(r"Rattle\.(\w+)\.specs\.([A-Z]\w*)", f.read())
            left += [cited for cited in cites if os.path.isdir(f"{root}/crates/{cited[0]}")]
    return found


def samples(root, crate):
    """The files of a crate's proofs/ that are samples: they cite specs, and no proof but one another."""
    names = [os.path.basename(path)[: -len(".antt")] for path in glob.glob(f"{root}/crates/{crate}/proofs/Sample*.antt")]
    found = []
    for name in names:
        with open(f"{root}/crates/{crate}/proofs/{name}.antt") as f:
            cites = re.findall(r"Rattle\.(\w+)\.proofs\.(\w+)", f.read())
        if all(cited in names for owner, cited in cites if os.path.isdir(f"{root}/crates/{owner}")):
            found.append(name)
    return found


def copy_samples(root, folder, crates):
    """Copies crates without functions, with their samples alone, and the specs below them; writes crates.txt."""
    needed = {}
    for crate in crates:
        for name, files in below(root, crate).items():
            needed.setdefault(name, set()).update(files)
    copy_definition(root, folder)
    for crate in needed.keys() - {"definition"}:
        source, target = f"{root}/crates/{crate}", f"{folder}/crates/{crate}"
        os.makedirs(target + "/specs")
        for name in needed[crate]:
            shutil.copy(f"{source}/specs/{name}.antt", target + "/specs")
        modules(target + "/specs", needed[crate])
        if crate in crates:
            copy_types(source, target)
            os.makedirs(target + "/proofs")
            for name in samples(root, crate):
                shutil.copy(f"{source}/proofs/{name}.antt", target + "/proofs")
            modules(target + "/proofs", samples(root, crate))
        else:
            os.makedirs(target + "/src")
            with open(target + "/src/lib.rt", "w") as f:
                f.write("// Its specs alone.\n")
    with open(root + "/crates.txt") as f, open(folder + "/crates.txt", "w") as out:
        for line in f:
            crate, _, deps = line.partition(":")
            if crate in needed:
                out.write(f"{crate}: {' '.join(d for d in deps.split() if d in needed)}\n")
