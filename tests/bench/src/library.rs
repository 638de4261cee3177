//! The library's entries that are timed, over slices.

use second::desk::{Desk, Job};
use second::Answer;

#[cfg(not(target_arch = "x86_64"))]
compile_error!("the archive is for x86-64, and a time under an emulator means nothing");

/// With which the second program's entries are asked too: whole ticks.
pub const GRANULE: u64 = 1;

#[link(name = "api_c", kind = "static")]
extern "C" {
    fn merkazobi_held(
        edition: usize,
        plan: *const u16,
        ticks: usize,
        p: u16,
        s: u32,
        n: u32,
    ) -> Answer;
    fn merkazobi_least(edition: usize, plan: *const u16, ticks: usize, p: u16, t: u32) -> Answer;
    fn merkazobi_curve(
        edition: usize,
        plan: *const u16,
        ticks: usize,
        p: u16,
        n: u32,
        list: *mut u32,
        list_numbers: usize,
    ) -> Answer;
    fn merkazobi_build(
        granule: usize,
        parts: *const u16,
        part_numbers: usize,
        out: *mut u16,
        out_ticks: usize,
    ) -> Answer;
    fn merkazobi_check(
        edition: usize,
        granule: usize,
        plan: *const u16,
        ticks: usize,
        parts: *const u16,
        part_numbers: usize,
    ) -> Answer;
    fn merkazobi_verdict(
        edition: usize,
        granule: usize,
        plan: *const u16,
        ticks: usize,
        parts: *const u16,
        part_numbers: usize,
        tasks: *const u16,
        task_numbers: usize,
        place: usize,
    ) -> Answer;
    fn merkazobi_plain(
        edition: usize,
        granule: usize,
        plan: *const u16,
        ticks: usize,
        parts: *const u16,
        part_numbers: usize,
        tasks: *const u16,
        task_numbers: usize,
        place: usize,
    ) -> Answer;
    fn merkazobi_page(
        edition: usize,
        granule: usize,
        plan: *const u16,
        ticks: usize,
        parts: *const u16,
        part_numbers: usize,
        tasks: *const u16,
        task_numbers: usize,
        place: usize,
        rows: *mut u32,
        row_numbers: usize,
    ) -> Answer;
    fn merkazobi_counts_held_many(
        plan: *const u16,
        ticks: usize,
        parts: *const u16,
        part_numbers: usize,
        list: *const u16,
        list_numbers: usize,
        questions: *const u16,
        question_numbers: usize,
        answers: *mut u16,
        answer_numbers: usize,
    ) -> Answer;
    fn merkazobi_list(file: *const u8, bytes: usize, out: *mut u8, out_bytes: usize) -> Answer;
    fn merkazobi_request(
        desk: *mut Desk,
        jobs: *mut Job,
        places: usize,
        t: u32,
        c: u32,
        d: u32,
    ) -> Answer;
}

pub fn held(edition: u64, plan: &[u16], p: u16, s: u32, n: u32) -> Answer {
    unsafe { merkazobi_held(edition as usize, plan.as_ptr(), plan.len(), p, s, n) }
}

pub fn least(edition: u64, plan: &[u16], p: u16, t: u32) -> Answer {
    unsafe { merkazobi_least(edition as usize, plan.as_ptr(), plan.len(), p, t) }
}

pub fn curve(edition: u64, plan: &[u16], p: u16, n: u32, list: &mut [u32]) -> Answer {
    unsafe {
        merkazobi_curve(
            edition as usize,
            plan.as_ptr(),
            plan.len(),
            p,
            n,
            list.as_mut_ptr(),
            list.len(),
        )
    }
}

pub fn build(parts: &[u16], out: &mut [u16]) -> Answer {
    unsafe {
        merkazobi_build(
            GRANULE as usize,
            parts.as_ptr(),
            parts.len(),
            out.as_mut_ptr(),
            out.len(),
        )
    }
}

pub fn check(edition: u64, plan: &[u16], parts: &[u16]) -> Answer {
    unsafe {
        merkazobi_check(
            edition as usize,
            GRANULE as usize,
            plan.as_ptr(),
            plan.len(),
            parts.as_ptr(),
            parts.len(),
        )
    }
}

type Engine = unsafe extern "C" fn(
    usize,
    usize,
    *const u16,
    usize,
    *const u16,
    usize,
    *const u16,
    usize,
    usize,
) -> Answer;

fn judged(
    engine: Engine,
    edition: u64,
    plan: &[u16],
    parts: &[u16],
    tasks: &[u16],
    place: usize,
) -> Answer {
    unsafe {
        engine(
            edition as usize,
            GRANULE as usize,
            plan.as_ptr(),
            plan.len(),
            parts.as_ptr(),
            parts.len(),
            tasks.as_ptr(),
            tasks.len(),
            place,
        )
    }
}

pub fn verdict(edition: u64, plan: &[u16], parts: &[u16], tasks: &[u16], place: usize) -> Answer {
    judged(merkazobi_verdict, edition, plan, parts, tasks, place)
}

pub fn plain(edition: u64, plan: &[u16], parts: &[u16], tasks: &[u16], place: usize) -> Answer {
    judged(merkazobi_plain, edition, plan, parts, tasks, place)
}

pub fn page(
    edition: u64,
    plan: &[u16],
    parts: &[u16],
    tasks: &[u16],
    place: usize,
    rows: &mut [u32],
) -> Answer {
    unsafe {
        merkazobi_page(
            edition as usize,
            GRANULE as usize,
            plan.as_ptr(),
            plan.len(),
            parts.as_ptr(),
            parts.len(),
            tasks.as_ptr(),
            tasks.len(),
            place,
            rows.as_mut_ptr(),
            rows.len(),
        )
    }
}

pub fn counts_held_many(
    plan: &[u16],
    parts: &[u16],
    list: &[u16],
    questions: &[u16],
    answers: &mut [u16],
) -> Answer {
    unsafe {
        merkazobi_counts_held_many(
            plan.as_ptr(),
            plan.len(),
            parts.as_ptr(),
            parts.len(),
            list.as_ptr(),
            list.len(),
            questions.as_ptr(),
            questions.len(),
            answers.as_mut_ptr(),
            answers.len(),
        )
    }
}

pub fn list(file: &[u8], out: &mut [u8]) -> Answer {
    unsafe { merkazobi_list(file.as_ptr(), file.len(), out.as_mut_ptr(), out.len()) }
}

pub fn request(desk: &mut Desk, jobs: &mut [Job], t: u32, c: u32, d: u32) -> Answer {
    unsafe { merkazobi_request(desk, jobs.as_mut_ptr(), jobs.len(), t, c, d) }
}
