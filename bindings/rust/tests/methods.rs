//! Each task has its method.

use crossbar5::{Engine, Error, Task};

const FIRST: &str = "J,0,1,D,3041\nS,0,128,,\n";
const RECORDS: &str = "0,1,0,D,3041,-,DIALTONE,1,3041-0-417,-\nPATHS,1\nCLOSED,4\n";

#[test]
fn each_task_has_its_method() -> Result<(), Error> {
    let engine = Engine::default();
    assert_eq!(engine.replay(FIRST)?, RECORDS);
    assert!(engine.walk(FIRST)?.lines().count() > engine.walk_in_short(FIRST)?.lines().count());
    assert_eq!(engine.audit(RECORDS)?, "AUDIT,LEGAL,1\nPATHS,1\nCLOSED,4\n");
    assert!(engine
        .draw_as_text(RECORDS)?
        .starts_with("PATHS AT A GLANCE"));
    assert!(engine.draw(RECORDS)?.contains("<svg"));
    assert!(engine.page(RECORDS)?.contains("id=\"turn0\""));
    let wrong = RECORDS.replace("CLOSED,4", "CLOSED,5");
    assert_eq!(
        engine.audit(&wrong),
        Err(Error::FoundWrong(
            "AUDIT,COUNTS\nPATHS,1\nCLOSED,4\n".to_string()
        ))
    );
    assert_eq!(
        engine.draw("J\n"),
        Err(Error::RecordsRefused("FAULT,U1,1\n".to_string()))
    );
    assert_eq!(
        engine.task(Task::Replay, "J\n").unwrap_err().to_string(),
        "FAULT,T1,1"
    );
    Ok(())
}

#[test]
fn walks_as_json_and_looks_have_their_methods() -> Result<(), Error> {
    let engine = Engine::default();
    assert!(engine
        .walk_as_json(FIRST)?
        .lines()
        .all(|line| line.starts_with('{') && line.ends_with('}')));
    let half = "J,0,1,D,3041\nS,0,5,,\n";
    assert!(engine.look(half)?.contains("marker 0"));
    assert!(engine.look_as_json(half)?.starts_with('{'));
    assert!(engine.look_in_svg(half)?.contains("<svg"));
    Ok(())
}
