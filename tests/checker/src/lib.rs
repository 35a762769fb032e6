//! Demand 3 of document 01, checked on one run. It shares no code with the model: it is told the calls with their answers and what they
//! leave, and finds the sizes of the ways from the parents itself.

/// A call of the list and its answer.
#[derive(Clone, Copy, Debug)]
pub enum Call {
    /// A send, and the number of the message; none where it was turned away.
    Send { source: u16, group: u16, message: Option<u16> },
    /// An arrival, and how many copies it took; 0 where it was held, a repeat or turned away.
    Arrive { taken: u16 },
}

/// One run: the list of calls, and what is found after it.
pub struct Run<'a> {
    pub units: usize,
    /// Each group's members, one bit for each unit.
    pub groups: &'a [u32],
    /// The parent of each unit, 255 for a root.
    pub parents: &'a [u8],
    pub calls: &'a [Call],
    /// The log of each unit, as handed back.
    pub logs: &'a [Vec<u16>],
    /// How many hops were made, and how many of these are taken.
    pub hops_made: usize,
    pub hops_taken: usize,
    /// What the call for rest answers.
    pub rest: bool,
}

/// A message that was sent.
#[derive(Clone, Copy)]
struct Sent {
    number: u16,
    source: u16,
    group: u16,
}

/// All claims of demand 3; the first that does not hold is told.
pub fn check(run: &Run) -> Result<(), String> {
    let sent = messages(run)?;
    for unit in 0..run.units {
        addressed(run, &sent, unit)?;
        once(run, unit)?;
        sent_order(run, &sent, unit)?;
    }
    no_circle(run)?;
    rest_by_sums(run, &sent)?;
    rest_by_hops(run)?;
    complete_at_rest(run, &sent)
}

/// The messages in sent order. No two sends may have the same answer.
fn messages(run: &Run) -> Result<Vec<Sent>, String> {
    let mut sent: Vec<Sent> = Vec::new();
    for call in run.calls {
        if let Call::Send { source, group, message: Some(number) } = *call {
            if sent.iter().any(|other| other.number == number) {
                return Err(format!("message {number} is sent twice"));
            }
            if group as usize >= run.groups.len() {
                return Err(format!("message {number} is for no group"));
            }
            sent.push(Sent { number, source, group });
        }
    }
    Ok(sent)
}

fn find(sent: &[Sent], number: u16) -> Option<&Sent> {
    sent.iter().find(|message| message.number == number)
}

fn is_member(run: &Run, group: u16, unit: usize) -> bool {
    run.groups[group as usize] >> unit & 1 == 1
}

/// A unit's log holds only messages sent to groups of which it is a member.
fn addressed(run: &Run, sent: &[Sent], unit: usize) -> Result<(), String> {
    for &number in &run.logs[unit] {
        match find(sent, number) {
            None => return Err(format!("unit {unit} logs {number}, which was not sent")),
            Some(message) if !is_member(run, message.group, unit) => {
                return Err(format!("unit {unit} logs {number}, which is not for it"));
            }
            Some(_) => {}
        }
    }
    Ok(())
}

/// No log holds a message twice.
fn once(run: &Run, unit: usize) -> Result<(), String> {
    let mut numbers = run.logs[unit].clone();
    numbers.sort_unstable();
    match numbers.windows(2).find(|pair| pair[0] == pair[1]) {
        Some(pair) => Err(format!("unit {unit} logs {} twice", pair[0])),
        None => Ok(()),
    }
}

/// Messages of one source to one group stand in their sent order.
fn sent_order(run: &Run, sent: &[Sent], unit: usize) -> Result<(), String> {
    let place = |number: u16| sent.iter().position(|message| message.number == number);
    let logged: Vec<usize> = run.logs[unit].iter().filter_map(|&n| place(n)).collect();
    for (at, &later) in logged.iter().enumerate() {
        let same =
            |&&earlier: &&usize| sent[earlier].source == sent[later].source && sent[earlier].group == sent[later].group;
        if let Some(&before) = logged[..at].iter().filter(same).find(|&&b| b > later) {
            let (first, second) = (sent[before].number, sent[later].number);
            return Err(format!("unit {unit} logs {first} before {second}, sent the other way"));
        }
    }
    Ok(())
}

/// The orders of all logs together have no circle: messages are removed that have nothing before them, until none is left.
fn no_circle(run: &Run) -> Result<(), String> {
    let highest = run.logs.iter().flatten().copied().max().unwrap_or(0) as usize;
    let mut after: Vec<Vec<u16>> = vec![Vec::new(); highest + 1];
    let mut before = vec![0usize; highest + 1];
    for log in run.logs {
        for pair in log.windows(2) {
            after[pair[0] as usize].push(pair[1]);
            before[pair[1] as usize] += 1;
        }
    }
    let mut free: Vec<usize> = (0..=highest).filter(|&m| before[m] == 0).collect();
    while let Some(message) = free.pop() {
        for &next in &after[message] {
            before[next as usize] -= 1;
            if before[next as usize] == 0 {
                free.push(next as usize);
            }
        }
    }
    match (0..=highest).find(|&m| before[m] > 0) {
        Some(message) => Err(format!("a circle of orders holds or leads to {message}")),
        None => Ok(()),
    }
}

/// At rest exactly when the copies taken are as many as the units on the ways of the messages.
fn rest_by_sums(run: &Run, sent: &[Sent]) -> Result<(), String> {
    let taken = |call: &Call| match *call {
        Call::Arrive { taken } => taken as usize,
        Call::Send { .. } => 0,
    };
    let taken: usize = run.calls.iter().map(taken).sum();
    let mut sizes = 0;
    for message in sent {
        sizes += route_size(run, message.group)?;
    }
    match run.rest == (taken == sizes) {
        true => Ok(()),
        false => Err(format!("rest is {}, but {taken} copies are taken and the ways add up to {sizes}", run.rest)),
    }
}

/// The size of a group's way: the members, and all units over them up to the one member that has no other member over it.
fn route_size(run: &Run, group: u16) -> Result<usize, String> {
    let members = run.groups[group as usize];
    // for each member the units over it, up to the root
    let mut chains: Vec<Vec<usize>> = Vec::new();
    for unit in (0..run.units).filter(|unit| members >> unit & 1 == 1) {
        let mut chain = vec![unit];
        while run.parents[chain[chain.len() - 1]] != 255 {
            chain.push(run.parents[chain[chain.len() - 1]] as usize);
            if chain.len() > run.units {
                return Err("the parents have a circle".to_string());
            }
        }
        chains.push(chain);
    }
    let on_all = |unit: &usize| chains.iter().all(|chain| chain.contains(unit));
    let mut common = (0..run.units).filter(|unit| members >> unit & 1 == 1 && on_all(unit));
    let Some(primary) = common.next() else {
        return Err(format!("group {group} has no primary"));
    };
    let mut route = 0u32;
    for chain in &chains {
        let end = chain.iter().position(|&unit| unit == primary).unwrap_or(0);
        chain[..=end].iter().for_each(|unit| route |= 1 << unit);
    }
    Ok(route.count_ones() as usize)
}

/// At rest exactly when no hop is left to be taken.
fn rest_by_hops(run: &Run) -> Result<(), String> {
    match run.rest == (run.hops_made == run.hops_taken) {
        true => Ok(()),
        false => Err(format!("rest is {}, but {} of {} hops are taken", run.rest, run.hops_taken, run.hops_made)),
    }
}

/// At rest the log of every member holds every message sent to its group.
fn complete_at_rest(run: &Run, sent: &[Sent]) -> Result<(), String> {
    if !run.rest {
        return Ok(());
    }
    for message in sent {
        for unit in (0..run.units).filter(|&unit| is_member(run, message.group, unit)) {
            if !run.logs[unit].contains(&message.number) {
                return Err(format!("at rest, unit {unit} has not logged {}", message.number));
            }
        }
    }
    Ok(())
}

#[cfg(test)]
mod tests {
    use super::*;

    fn send(source: u16, group: u16, message: u16) -> Call {
        let message = Some(message);
        Call::Send { source, group, message }
    }

    fn taken(taken: u16) -> Call {
        Call::Arrive { taken }
    }

    /// Document 01's run P8.
    fn p8_calls() -> Vec<Call> {
        let arrivals = [1, 1, 1, 0, 2].map(taken);
        [vec![send(3, 0, 1), send(1, 2, 2)], arrivals.to_vec()].concat()
    }

    fn p8_logs() -> Vec<Vec<u16>> {
        vec![vec![1], vec![], vec![2], vec![2, 1]]
    }

    fn run<'a>(calls: &'a [Call], logs: &'a [Vec<u16>]) -> Run<'a> {
        Run {
            units: 4,
            groups: &[0b1001, 0b0011, 0b1100, 0b0110],
            parents: &[255, 2, 0, 2],
            calls,
            logs,
            hops_made: 5,
            hops_taken: 5,
            rest: true,
        }
    }

    fn refuses(run: Run, text: &str) {
        let message = check(&run).unwrap_err();
        assert!(message.contains(text), "{message}");
    }

    #[test]
    fn accepts_p8() {
        assert_eq!(check(&run(&p8_calls(), &p8_logs())), Ok(()));
    }

    #[test]
    fn accepts_the_empty_list() {
        let logs = vec![Vec::new(); 4];
        let fresh = Run { hops_made: 0, hops_taken: 0, ..run(&[], &logs) };
        assert_eq!(check(&fresh), Ok(()));
    }

    #[test]
    fn refuses_a_circle_of_two() {
        // messages 1 and 2, both to group {2,3}, in opposite orders
        let calls = [send(0, 2, 1), send(1, 2, 2), taken(4)];
        let logs = vec![vec![], vec![], vec![1, 2], vec![2, 1]];
        refuses(run(&calls, &logs), "circle");
    }

    #[test]
    fn refuses_a_circle_of_three_logs() {
        // 1 before 2 at unit 0, 2 before 3 at unit 1, 3 before 1 at unit 2
        let calls = [send(0, 0, 1), send(1, 1, 2), send(2, 2, 3), taken(6)];
        let logs = vec![vec![1, 2], vec![2, 3], vec![3, 1]];
        let three = Run { units: 3, groups: &[0b101, 0b011, 0b110], parents: &[255, 0, 0], ..run(&calls, &logs) };
        refuses(three, "circle");
    }

    #[test]
    fn refuses_the_wrong_sent_order() {
        let calls = [send(0, 2, 1), send(0, 2, 2), taken(4)];
        let logs = vec![vec![], vec![], vec![2, 1], vec![2, 1]];
        refuses(run(&calls, &logs), "sent the other way");
    }

    #[test]
    fn accepts_either_order_of_two_sources() {
        let calls = [send(0, 2, 1), send(1, 2, 2), taken(4)];
        let logs = vec![vec![], vec![], vec![2, 1], vec![2, 1]];
        assert_eq!(check(&run(&calls, &logs)), Ok(()));
    }

    #[test]
    fn refuses_a_message_for_others() {
        let mut logs = p8_logs();
        logs[2].push(1);
        refuses(run(&p8_calls(), &logs), "not for it");
    }

    #[test]
    fn refuses_a_message_that_was_not_sent() {
        let mut logs = p8_logs();
        logs[0].push(3);
        refuses(run(&p8_calls(), &logs), "not sent");
    }

    #[test]
    fn refuses_a_message_twice() {
        let mut logs = p8_logs();
        logs[0].push(1);
        refuses(run(&p8_calls(), &logs), "logs 1 twice");
    }

    #[test]
    fn refuses_two_messages_of_one_number() {
        let mut calls = p8_calls();
        calls.push(send(0, 0, 1));
        refuses(run(&calls, &p8_logs()), "sent twice");
    }

    #[test]
    fn refuses_rest_before_the_sums_agree() {
        let mut calls = p8_calls();
        calls.pop();
        refuses(run(&calls, &p8_logs()), "copies are taken");
    }

    #[test]
    fn refuses_no_rest_where_the_sums_agree() {
        let (calls, logs) = (p8_calls(), p8_logs());
        let restless = Run { rest: false, hops_taken: 4, ..run(&calls, &logs) };
        refuses(restless, "copies are taken");
    }

    #[test]
    fn refuses_rest_with_a_hop_not_taken() {
        let (calls, logs) = (p8_calls(), p8_logs());
        let early = Run { hops_taken: 4, ..run(&calls, &logs) };
        refuses(early, "hops are taken");
    }

    #[test]
    fn refuses_no_rest_with_every_hop_taken() {
        let (calls, logs) = ([send(0, 0, 1)], vec![Vec::new(); 4]);
        let late = Run { rest: false, ..run(&calls, &logs) };
        refuses(late, "hops are taken");
    }

    #[test]
    fn refuses_a_log_that_lacks_a_message_at_rest() {
        let mut logs = p8_logs();
        logs[3].pop();
        refuses(run(&p8_calls(), &logs), "has not logged 1");
    }

    #[test]
    fn accepts_a_log_that_lacks_a_message_before_rest() {
        let mut calls = p8_calls();
        calls.pop();
        let mut logs = p8_logs();
        logs[3].clear();
        let under_way = Run { rest: false, hops_taken: 3, ..run(&calls, &logs) };
        assert_eq!(check(&under_way), Ok(()));
    }

    #[test]
    fn sizes_of_routes() {
        let (calls, logs) = (p8_calls(), p8_logs());
        let run = run(&calls, &logs);
        let sizes: Vec<_> = (0..4).map(|group| route_size(&run, group)).collect();
        assert_eq!(sizes, [Ok(3), Ok(3), Ok(2), Ok(2)]);
    }
}
