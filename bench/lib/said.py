"""What `take` says, and that it says no more: of old names in the crates of whoever takes, and where nobody reads to the end."""
import os
import re
import subprocess

from lib import pages
from lib.retake import Compared, write

# A program by names that crates had once: in a `use`, by a module's name, through a crate that has them from another, and in a clause.
OLD = """//! By old names.
ghost use Rattle.queue_steps.specs.{State.fills, RingNext.{len_found}};

use concurrent_queue::{model::Call, steps};
use queue_steps::steps::{LenHead, kinds::{after_len as after}};

fn by_module(at: steps::LenTail) -> Call<u64> {
    each_step::of(at)
}
"""
NAMED = {
    "len_found": "count_found",
    "LenHead": "CountHead",
    "after_len": "after_count",
    "LenTail": "CountTail",
    "each_step": "queue_steps::steps",
}
# Words of its owner's own, each of which is an old name in the table.
OWN = """//! Of theirs, told and parts; queue_steps::steps::LenAgain is in a comment alone.
use self::other::{Task, fills};
use std::iter::Sum as Count;

mod other;

fn theirs(told: &mut Vec<u64>, parts: u64) -> u64 {
    let extra = told.theirs(parts).other;
    let Ends { asks, answered } = other::Ends::of(extra);
    asks + answered.len_found() + Block { parts }.parts
}
"""


def taken(top, name):
    """A repository that has taken handles, and the text of what `take` said."""
    mine = f"{top}/{name}"
    os.makedirs(mine)
    return mine, take(mine, "queue_handle")


def take(*words):
    return subprocess.run([f"{pages.TOP}/take", *words], stdout=subprocess.PIPE, stderr=subprocess.PIPE, text=True, check=True).stdout


def named(said):
    """The old names that a take has found, each with the new one."""
    lines = (it.split(" names ")[1] for it in said.splitlines() if " names " in it)
    return dict(re.sub(" now$", "", it).split(", which is ") for it in lines)


def says(top):
    seen = Compared()
    mine, _ = taken(top, "readme")
    for path, text in pages.taken()[1].items():
        write(f"{mine}/{path}", text)
    seen.is_so("of README's programs it says nothing, also a second time", named(take(mine)) == {} == named(take(mine)))
    write(f"{mine}/crates/app/src/main.rt", OWN)
    seen.is_so("of its owner's own words it says nothing", named(take(mine)) == {})
    write(f"{mine}/crates/app/src/main.rt", OLD)
    said = take(mine)
    seen.is_so("it says each old name that a path has, and no other", named(said) == NAMED)
    seen.is_so("it says where", "crates/app/src/main.rt:5 names LenHead" in said)
    callers(seen, top)
    unread(seen, mine)
    return seen.wrong


def callers(seen, top):
    """All that is built on our crates here, as its owner's own: each name in it is one of today."""
    mine, _ = taken(top, "callers")
    take(mine, "channel_account", "channel_futures", "queue_crew", "queue_all", "queue_explore")
    had = set(os.listdir(f"{mine}/crates"))
    for name in sorted(os.listdir(f"{pages.TOP}/crates")):
        if name not in had:
            os.symlink(f"{pages.TOP}/crates/{name}", f"{mine}/crates/{name}")
    said = named(take(mine))
    seen.is_so("of the crates here that are built on these it says nothing", said == {})


def unread(seen, mine):
    """Nobody reads what it says."""
    reading, writing = os.pipe()
    os.close(reading)
    ran = subprocess.run([f"{pages.TOP}/take", mine], stdout=writing, stderr=subprocess.PIPE, text=True)
    os.close(writing)
    seen.is_so("where nobody reads it ends quietly", ran.returncode == 0 and not ran.stderr)
