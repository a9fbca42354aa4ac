//! Plans the sample job and checks the plan.
fn main() {
    let job = b"1\n10 6 0\n1\n5 3 15 4\n";
    let mut arena = vec![0; 2_000 * varandeco::RECORD_BYTES];
    let mut buffer = [0; varandeco::PLAN_NUMBERS];

    let plan = match varandeco::plan_text(job, &mut arena, &mut buffer) {
        Ok(plan) => plan,
        Err(refusal) => return println!("no plan: {refusal}"),
    };
    println!("profit {} of {} pieces within {} by {} ({} outlines)", plan.profit, plan.pieces, plan.length, plan.width, plan.outlines);
    let list = &buffer[..plan.numbers()];
    for p in list.chunks(varandeco::PLACEMENT_NUMBERS) {
        println!("type {} at ({}, {})", p[0], p[1], p[2]);
    }

    match varandeco::check_numbers(&[10, 6, 0, 1, 5, 3, 15, 4], list) {
        Ok(drawing) => println!("accepted: profit {}, {} pieces", drawing.profit, drawing.pieces),
        Err(refusal) => println!("not accepted: {refusal}"),
    }
}
