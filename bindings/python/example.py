"""A line goes off hook, and the marker finds it a register: the records, an audit, a drawing, and a refused row."""

from crossbar5 import Engine, FoundWrong, TrafficRefused

engine = Engine()
records = engine.replay("J,0,1,D,3041\nS,0,128,,\n")
print(records)
print(engine.audit(records))
print(engine.draw_text(records))
try:
    engine.replay("J,0,1,D\n")
except TrafficRefused as refused:
    print("refused:", refused)
try:
    engine.audit(records.replace("DIALTONE,1,3041-0-417", "NOPATH,-,-"))
except FoundWrong as wrong:
    print("wrong:", wrong.text)
