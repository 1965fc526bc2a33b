//! The plan position: what time it is, which plan is in force, and whose slot runs.
//!
//! A tick costs the same however much time it passes: whole frames are skipped by a division, and within a frame only
//! the plan's slots (16 at most) are looked at.

use crate::vector::Plan;

/// A plan, prepared for the clock.
#[derive(Debug)]
struct Timeline {
    frame: u32,
    /// How much of the frame no slot covers.
    gaps: u32,
    /// The frame cut into slots and gaps, in order.
    spans: Vec<Span>,
    /// Start and partition (as a bit) of each slot.
    starts: Vec<(u32, u8)>,
    /// The partitions that have a slot, as bits.
    served: u8,
}

/// A stretch of the frame in which the same slot, or none, runs.
#[derive(Debug, Clone, Copy)]
struct Span {
    end: u32,
    runs: Option<u8>,
}

impl Timeline {
    fn new(plan: &Plan) -> Timeline {
        let mut spans = Vec::with_capacity(2 * plan.slots.len() + 1);
        let mut gaps = 0;
        let mut end = 0;
        for slot in &plan.slots {
            if slot.start > end {
                gaps += slot.start - end;
                spans.push(Span { end: slot.start, runs: None });
            }
            end = slot.end();
            spans.push(Span { end, runs: Some(slot.partition) });
        }
        if end < plan.frame {
            gaps += plan.frame - end;
            spans.push(Span { end: plan.frame, runs: None });
        }
        let starts: Vec<_> = plan.slots.iter().map(|slot| (slot.start, 1 << slot.partition)).collect();
        let served = starts.iter().fold(0, |bits, (_, bit)| bits | bit);
        Timeline { frame: plan.frame, gaps, spans, starts, served }
    }

    /// The span at an offset below the frame's length.
    fn span(&self, offset: u32) -> Span {
        self.spans[self.spans.partition_point(|span| span.end <= offset)]
    }

    /// The partitions with a slot whose start passes the test, as bits.
    fn starting(&self, test: impl Fn(u32) -> bool) -> u8 {
        self.starts.iter().filter(|(start, _)| test(*start)).fold(0, |bits, (_, bit)| bits | bit)
    }
}

#[derive(Debug)]
pub struct Clock {
    pub now: u32,
    pub plan: usize,
    pub next_plan: usize,
    frame_start: u32,
    /// The span of the present moment, kept so that most ticks and all guest checks need no search.
    span: Span,
    timelines: Vec<Timeline>,
}

impl Clock {
    pub fn new(plans: &[Plan]) -> Clock {
        let timelines: Vec<_> = plans.iter().map(Timeline::new).collect();
        let span = timelines[0].span(0);
        Clock { now: 0, plan: 0, next_plan: 0, frame_start: 0, span, timelines }
    }

    /// The partition whose slot runs.
    pub fn runs(&self) -> Option<u8> {
        self.span.runs
    }

    pub fn plans(&self) -> usize {
        self.timelines.len()
    }

    /// How much of the present plan's frame no slot covers.
    pub fn gaps(&self) -> u32 {
        self.timelines[self.plan].gaps
    }

    /// Begins a frame of plan 0 at once.
    pub fn restart(&mut self) {
        self.plan = 0;
        self.next_plan = 0;
        self.frame_start = self.now;
        self.span = self.timelines[0].span(0);
    }

    /// Passes time up to a moment that is not before now. Answers those of the sleepers that had a slot start on the way.
    pub fn pass(&mut self, time: u32, sleepers: u8) -> u8 {
        let from = self.now - self.frame_start;
        let to = time - self.frame_start;
        self.now = time;
        if to < self.span.end {
            return 0;
        }
        if to < self.timelines[self.plan].frame {
            self.pass_within(from, to, sleepers)
        } else {
            self.pass_frames(from, to, sleepers)
        }
    }

    fn pass_within(&mut self, from: u32, to: u32, sleepers: u8) -> u8 {
        let timeline = &self.timelines[self.plan];
        self.span = timeline.span(to);
        if sleepers == 0 {
            return 0;
        }
        sleepers & timeline.starting(|start| from < start && start <= to)
    }

    /// The rest of this frame, whole frames of the next plan, and the front of one more.
    fn pass_frames(&mut self, from: u32, to: u32, sleepers: u8) -> u8 {
        let before = &self.timelines[self.plan];
        let after = &self.timelines[self.next_plan];
        let beyond = to - before.frame;
        let offset = beyond % after.frame;
        self.plan = self.next_plan;
        self.frame_start = self.now - offset;
        self.span = after.span(offset);
        if sleepers == 0 {
            return 0;
        }
        let whole_frame = beyond >= after.frame;
        let started = before.starting(|start| from < start)
            | if whole_frame { after.served } else { after.starting(|start| start <= offset) };
        sleepers & started
    }
}
