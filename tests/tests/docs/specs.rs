//! The definitions in `crates/*/specs/`, and what each uses.

use antenna_tests::root;
use std::collections::{BTreeMap, BTreeSet};

/// What stands between two blank lines of a specs file: a definition, or a theorem with its proof.
struct Block {
    /// Its own name and, of a `data`, those of its constructors.
    names: Vec<String>,
    /// How many of its lines are neither comment nor `use`.
    lines: usize,
    /// The words of its signature, and of the parameters of the modules that it stands in.
    signature: Vec<String>,
    /// All its words.
    words: Vec<String>,
    /// The variables that it binds, which are no uses of definitions of the same name.
    bound: BTreeSet<String>,
}

/// A specs file: its blocks, and the module of each name that it uses from elsewhere.
struct Source {
    blocks: Vec<Block>,
    used: BTreeMap<String, String>,
}

/// A definition: its file, and its place there.
pub type Definition = (String, usize);

#[derive(Default)]
pub struct Specs {
    sources: BTreeMap<String, Source>,
}

fn words(text: &str) -> Vec<String> {
    text.split(|c: char| c.is_whitespace() || "(){},;".contains(c))
        .filter(|word| !word.starts_with('.'))
        .map(|word| word.trim_end_matches('.').into())
        .collect()
}

/// The variables bound in a text: those of `(x y : T)` and `{x y : T}`, and those of `λ x y. e`.
fn binders(text: &str) -> Vec<String> {
    let typed = text.split(['(', '{']).skip(1).filter_map(|part| {
        let (names, _) = part.split_once(" : ")?;
        (!names.contains([')', '}', '→'])).then_some(names)
    });
    let lambdas = text
        .split('λ')
        .skip(1)
        .filter_map(|part| part.split('.').next());
    typed.chain(lambdas).flat_map(words).collect()
}

/// The variables on the left of an equation. What stands in brackets there is a pattern.
fn arguments(line: &str) -> Vec<String> {
    let (left, _) = line.split_once(" =").unwrap_or((line, ""));
    let mut depth = 0;
    let outside = left.chars().filter(|c| {
        match c {
            '(' | '{' => depth += 1,
            ')' | '}' => depth -= 1,
            _ => (),
        }
        depth == 0
    });
    words(&outside.collect::<String>())
        .into_iter()
        .skip(1)
        .collect()
}

fn indent(line: &str) -> usize {
    line.len() - line.trim_start().len()
}

fn is_code(line: &&str) -> bool {
    let line = line.trim_start();
    !line.is_empty() && !line.starts_with("--") && !line.starts_with("use ")
}

/// The name that a line declares.
fn declared(line: &str) -> &str {
    let mut rest = line.trim_start();
    for kind in ["unfoldable ", "abbrev ", "pub ", "record ", "data "] {
        rest = rest.strip_prefix(kind).unwrap_or(rest);
    }
    rest.split_whitespace().next().unwrap()
}

/// The names of a `use` line, each with its module. Of the repository no line brings a whole module, another name, or an operator.
fn names_used(line: &str) -> Vec<(String, String)> {
    let ours = line.starts_with("Rattle.") && !line.starts_with("Rattle.std.");
    let Some((module, names)) = line.trim_end_matches([';', '}']).split_once(".{") else {
        assert!(!ours, "{line}");
        return Vec::new();
    };
    let names: Vec<&str> = names.split(", ").collect();
    let plain = names.iter().all(|name| !name.contains([' ', '◌']));
    assert!(plain || !ours, "{line}");
    let names = names.iter();
    names.map(|&name| (name.into(), module.into())).collect()
}

/// `crates/net/specs/Net.antt` for `Rattle.net.specs.Net`. None for a module of the kit, and for a struct of the code.
fn file_of(module: &str) -> Option<String> {
    let (home, file) = module.strip_prefix("Rattle.")?.split_once(".specs.")?;
    (home != "std" && !file.starts_with("declared."))
        .then(|| format!("crates/{home}/specs/{file}.antt"))
}

impl Block {
    fn read(lines: &[&str], around: &str) -> Block {
        let margin = indent(lines[0]);
        let name = declared(lines[0]);
        let mut names = vec![name.to_string()];
        if lines[0].trim_start().starts_with("pub data ") {
            let constructors = lines.iter().filter(|line| indent(line) == margin + 2);
            names.extend(constructors.map(|line| declared(line).into()));
        }
        let starts = |line: &str, word: &str| {
            indent(line) == margin && line.split_whitespace().next() == Some(word)
        };
        let body = |line: &&&str| starts(line, name) || starts(line, "unfolding");
        let signature = 1 + lines[1..].iter().take_while(|line| !body(line)).count();
        let equations = lines.iter().filter(|line| starts(line, name));
        let mut bound: BTreeSet<String> = equations.flat_map(|line| arguments(line)).collect();
        bound.extend(binders(&format!("{around} {}", lines.join(" "))));
        let with = |lines: &[&str]| words(&format!("{around} {}", lines.join(" ")));
        Block {
            names,
            lines: lines.len(),
            signature: with(&lines[..signature]),
            words: with(lines),
            bound,
        }
    }
}

impl Source {
    fn read(file: &str) -> Source {
        let text = std::fs::read_to_string(root().join(file)).expect(file);
        let uses = text.lines().filter_map(|line| line.strip_prefix("use "));
        let used = uses.flat_map(names_used).collect();
        let mut blocks = Vec::new();
        // the modules around a line: how far each is indented, and its head
        let mut modules: Vec<(usize, String)> = Vec::new();
        for paragraph in text.split("\n\n") {
            let mut lines: Vec<&str> = paragraph.lines().filter(is_code).collect();
            while let Some(first) = lines.first() {
                let margin = indent(first);
                modules.retain(|module| module.0 < margin);
                if !first.trim_start().starts_with("module ") {
                    let heads = modules.iter().map(|module| module.1.clone());
                    blocks.push(Block::read(&lines, &heads.collect::<Vec<_>>().join(" ")));
                    break;
                }
                let end = lines.iter().position(|line| line.ends_with("where"));
                let head: Vec<&str> = lines.drain(..=end.unwrap()).collect();
                modules.push((margin, head.join(" ")));
            }
        }
        Source { blocks, used }
    }

    fn at(&self, name: &str) -> Option<usize> {
        let has = |block: &Block| block.names.iter().any(|own| own == name);
        self.blocks.iter().position(has)
    }
}

impl Specs {
    fn source(&mut self, file: &str) -> &Source {
        let source = self.sources.entry(file.into());
        source.or_insert_with(|| Source::read(file))
    }

    fn block(&mut self, definition: &Definition) -> &Block {
        &self.source(&definition.0).blocks[definition.1]
    }

    pub fn name(&mut self, definition: &Definition) -> String {
        self.block(definition).names[0].clone()
    }

    pub fn find(&mut self, file: &str, name: &str) -> Definition {
        let at = self.source(file).at(name);
        (
            file.into(),
            at.unwrap_or_else(|| panic!("{name} in {file}")),
        )
    }

    pub fn all_of(&mut self, file: &str) -> BTreeSet<Definition> {
        let count = self.source(file).blocks.len();
        (0..count).map(|at| (file.into(), at)).collect()
    }

    /// Lines that are neither blank, comment nor `use`.
    pub fn lines<'a>(&mut self, definitions: impl IntoIterator<Item = &'a Definition>) -> usize {
        let definitions = definitions.into_iter();
        definitions.map(|one| self.block(one).lines).sum()
    }

    /// What words mean in a file.
    fn meant<'a>(
        &mut self,
        file: &str,
        words: impl IntoIterator<Item = &'a String>,
    ) -> Vec<Definition> {
        let mut found = Vec::new();
        for word in words {
            assert!(!word.contains("Rattle."), "{word} in {file}");
            let source = self.source(file);
            let home = match (source.at(word), source.used.get(word)) {
                (Some(_), _) => Some(file.into()),
                (None, module) => module.and_then(|module| file_of(module)),
            };
            found.extend(home.map(|home| self.find(&home, word)));
        }
        found
    }

    /// What a part of a block uses.
    fn uses(&mut self, at: &Definition, part: fn(&Block) -> &[String]) -> Vec<Definition> {
        let block = self.block(at);
        let words: Vec<String> = part(block)
            .iter()
            .filter(|word| !block.bound.contains(*word))
            .cloned()
            .collect();
        self.meant(&at.0, &words)
    }

    /// The definitions whose names a definition gives to its own variables.
    pub fn hidden(&mut self, at: &Definition) -> Vec<Definition> {
        let bound = self.block(at).bound.clone();
        self.meant(&at.0, &bound)
    }

    /// These definitions and all that they use.
    fn closure(&mut self, mut open: Vec<Definition>) -> BTreeSet<Definition> {
        let mut closed = BTreeSet::new();
        while let Some(definition) = open.pop() {
            if closed.insert(definition.clone()) {
                open.extend(self.uses(&definition, |block| &block.words));
            }
        }
        closed
    }

    /// What a theorem's statement rests on.
    pub fn of_theorem(&mut self, file: &str, name: &str) -> BTreeSet<Definition> {
        let theorem = self.find(file, name);
        let mut open = self.uses(&theorem, |block| &block.signature);
        open.retain(|one| *one != theorem);
        self.closure(open)
    }

    /// What a part of a function's contract rests on; the text is that of its file.
    fn of_contract(&mut self, text: &str, contract: &str) -> BTreeSet<Definition> {
        let uses = text
            .lines()
            .filter_map(|line| line.strip_prefix("ghost use "));
        let used: BTreeMap<String, String> = uses.flat_map(names_used).collect();
        let mut open = Vec::new();
        for word in words(contract) {
            let home = used.get(&word).and_then(|module| file_of(module));
            open.extend(home.map(|home| self.find(&home, &word)));
        }
        assert!(!open.is_empty(), "{contract}");
        self.closure(open)
    }

    /// What the promise of each exported call rests on.
    pub fn of_promises(&mut self) -> BTreeMap<String, BTreeSet<Definition>> {
        let text = std::fs::read_to_string(root().join("crates/antenna_c/src/lib.rt")).unwrap();
        let mut promises = BTreeMap::new();
        for export in text.split("pub extern \"C\" fn ").skip(1) {
            let (name, rest) = export.split_once('(').unwrap();
            let (contract, _) = rest.split_once("\n{\n").unwrap();
            assert!(!contract.contains("requires"), "{name} has no requires");
            let (_, ensures) = contract.split_once("ensures {").expect(name);
            promises.insert(name.into(), self.of_contract(&text, ensures));
        }
        promises
    }

    /// What the contract of a function rests on, its `requires` too.
    pub fn of_function(&mut self, file: &str, name: &str) -> BTreeSet<Definition> {
        let text = std::fs::read_to_string(root().join(file)).expect(file);
        let start = format!("fn {name}(");
        let (_, rest) = text.split_once(&start).expect(name);
        let (contract, _) = rest.split_once("\n{\n").expect(name);
        self.of_contract(&text, contract)
    }
}
