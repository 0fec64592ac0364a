//! Finishing calls, one step simpler.

use super::{distinct, parts, replaced, simpler_words, Shrink};
use answers::{BuildCall, FinishCall, Pieces, PIECE};
use std::ops::Range;

impl Shrink for FinishCall {
    fn simpler(&self) -> Box<dyn Iterator<Item = Self> + '_> {
        let flat = (self.lines.stride() > 2).then(|| without_extras(self));
        let whole = (self.pieces.records.len() / PIECE).min(64);
        let with_lines = (0..whole).filter_map(|piece| without_piece_and_lines(self, piece));
        let pieces = parts(whole).map(|part| without_pieces(self, part));
        let lines = (0..self.lines.lines()).map(|line| without_line(self, line));
        let out_of_piece = (0..self.lines.lines()).filter_map(|line| without_member(self, line));
        let points = (0..whole).filter_map(|piece| shorter(self, piece));
        let fewer = with_lines.chain(out_of_piece).chain(pieces).chain(lines);
        let smaller = fewer.chain(points).chain(cut(self));
        let same = self.lines.simpler().filter(|lines| lines.lines() == self.lines.lines());
        let simpler = same.map(|lines| FinishCall { lines, ..self.clone() });
        Box::new(flat.into_iter().chain(smaller).chain(simpler).chain(words(self)))
    }
}

fn without_extras(call: &FinishCall) -> FinishCall {
    let stride = call.lines.stride();
    let merged = call.pieces.merged.chunks(stride).flat_map(|p| p.iter().take(2)).copied();
    let pieces = Pieces { merged: merged.collect(), ..call.pieces.clone() };
    FinishCall { lines: call.lines.flat(), pieces }
}

fn without_pieces(call: &FinishCall, part: Range<usize>) -> FinishCall {
    let mut without = call.clone();
    without.pieces.k = without.pieces.k.saturating_sub(part.len() as u64);
    without.pieces.records.drain(PIECE * part.start..PIECE * part.end);
    without
}

/// Without a piece and without the lines that it names.
fn without_piece_and_lines(call: &FinishCall, piece: usize) -> Option<FinishCall> {
    let record = call.pieces.records.chunks_exact(PIECE).nth(piece)?;
    let first = record[0] as usize;
    let mut named = call.pieces.members.get(first..first + record[1] as usize)?.to_vec();
    named.sort_unstable();
    named.dedup();
    named.retain(|&line| (line as usize) < call.lines.lines());
    let without = without_pieces(call, piece..piece + 1);
    Some(named.into_iter().rev().fold(without, |call, line| without_line(&call, line as usize)))
}

/// Without a line; those behind it are renumbered, and so are the places of pieces in the lines' coordinates.
/// Who names the line itself names none.
fn without_line(call: &FinishCall, line: usize) -> FinishCall {
    let mut without = call.clone();
    let FinishCall { lines, pieces } = &mut without;
    let (stride, first) = (lines.stride(), lines.firsts()[line]);
    let count = lines.counts.remove(line) as usize;
    lines.coordinates.drain(stride * first..stride * (first + count));
    lines.groups.remove(line);
    lines.kinds.remove(line);
    for y in pieces.members.iter_mut().chain(&mut pieces.listing) {
        *y = match (*y as usize).cmp(&line) {
            std::cmp::Ordering::Less => *y,
            std::cmp::Ordering::Equal => u32::MAX,
            std::cmp::Ordering::Greater => *y - 1,
        };
    }
    for record in pieces.records.chunks_exact_mut(PIECE).filter(|record| record[2] == 0) {
        if record[3] as usize > first {
            record[3] = record[3].saturating_sub(count as u32);
        }
    }
    without
}

/// Without a line of a piece of several, and without its place among the members and in the listing of the piece.
/// Where one line is left the piece is that line's own.
fn without_member(call: &FinishCall, line: usize) -> Option<FinishCall> {
    let place = |of: &[u32]| of.iter().position(|&y| y as usize == line);
    let (member, listed) = (place(&call.pieces.members)?, place(&call.pieces.listing)?);
    let mut without = call.clone();
    let Pieces { records, members, marks, listing, .. } = &mut without.pieces;
    (member < marks.len()).then(|| marks.remove(member))?;
    members.remove(member);
    listing.remove(listed);
    let mut left = None;
    for record in records.chunks_exact_mut(PIECE) {
        let within =
            (record[0] as usize..record[0] as usize + record[1] as usize).contains(&member);
        if within && record[1] == 2 {
            left = members.get(record[0] as usize).copied();
            (record[2], record[4]) = (u32::MAX, 0);
        }
        record[1] -= u32::from(within);
        record[0] -= u32::from(record[0] as usize > member);
    }
    let own = left.and_then(|left| {
        let first = *call.lines.firsts().get(left as usize)?;
        Some([0, first as u32, call.lines.counts[left as usize]])
    });
    for record in without.pieces.records.chunks_exact_mut(PIECE) {
        if let (u32::MAX, Some(own)) = (record[2], own) {
            record[2..].copy_from_slice(&own);
        }
    }
    Some(without_line(&without, line))
}

/// With a coordinate less in a piece of several lines.
fn shorter(call: &FinishCall, piece: usize) -> Option<FinishCall> {
    let mut shorter = call.clone();
    let record = shorter.pieces.records.chunks_exact_mut(PIECE).nth(piece)?;
    (record[1] > 1 && record[4] > 0).then(|| record[4] -= 1)?;
    Some(shorter)
}

/// With slices that end where the last piece does.
fn cut(call: &FinishCall) -> Option<FinishCall> {
    let mut cut = call.clone();
    let records = call.pieces.records.chunks_exact(PIECE).take(call.pieces.k.min(1 << 32) as usize);
    let end = |from: usize, of: fn(&&[u32]) -> bool| {
        let ends =
            records.clone().filter(of).map(|it| u64::from(it[from]) + u64::from(it[from + 1]));
        ends.max().unwrap_or(0) as usize
    };
    let (members, points) = (end(0, |_| true), end(3, |record| record[2] == 1));
    cut.pieces.records.truncate(PIECE.saturating_mul(call.pieces.k.min(1 << 32) as usize));
    cut.pieces.members.truncate(members);
    cut.pieces.marks.truncate(members);
    cut.pieces.listing.truncate(members);
    cut.pieces.merged.truncate(call.lines.stride().saturating_mul(points));
    (cut != *call).then_some(cut)
}

/// A distinct word replaced by a simpler one in lines and pieces alike, marks of 0, and one word of the pieces.
fn words(call: &FinishCall) -> impl Iterator<Item = FinishCall> + '_ {
    let all = [&call.lines.coordinates[..], &call.pieces.merged].concat();
    let everywhere = distinct(&all).into_iter().flat_map(move |old| {
        simpler_words(old).map(move |new| {
            let coordinates = replaced(&call.lines.coordinates, old, new);
            let lines = BuildCall { coordinates, ..call.lines.clone() };
            let merged = replaced(&call.pieces.merged, old, new);
            FinishCall { lines, pieces: Pieces { merged, ..call.pieces.clone() } }
        })
    });
    let places = (0..call.pieces.merged.len()).flat_map(move |place| {
        simpler_words(call.pieces.merged[place]).map(move |new| {
            let mut simpler = call.clone();
            simpler.pieces.merged[place] = new;
            simpler
        })
    });
    let marked = (0..call.pieces.marks.len()).filter(move |&place| call.pieces.marks[place] > 0);
    let marks = marked.map(move |place| {
        let mut simpler = call.clone();
        simpler.pieces.marks[place] = 0;
        simpler
    });
    marks.chain(everywhere).chain(places)
}
