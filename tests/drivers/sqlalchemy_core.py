"""What SQLAlchemy Core does at a server, through psycopg2: python3 sqlalchemy_core.py PORT"""
import sys

from sqlalchemy import column, create_engine, exc, func, select, table, text

engine = create_engine(f'postgresql+psycopg2://root@127.0.0.1:{sys.argv[1]}/root', use_native_hstore=False)
with engine.begin() as at:
    at.execute(text('CREATE TABLE a (k BIGINT PRIMARY KEY, x TEXT)'))
    at.execute(text('INSERT INTO a VALUES (:k, :x)'), [{'k': 1, 'x': 'one'}, {'k': -2, 'x': None}])
with engine.connect() as at:
    print(at.execute(text('SELECT k, x FROM a ORDER BY k')).fetchall())
    print(at.execute(text('SELECT k FROM a WHERE x = :x'), {'x': "one'; DROP TABLE a; --"}).fetchall())
try:
    with engine.begin() as at:
        at.execute(text("INSERT INTO a VALUES (3, 'three')"))
        at.execute(text("INSERT INTO a VALUES (1, 'again')"))
except exc.IntegrityError as refusal:
    print('refused', refusal.orig.pgcode)
with engine.connect() as at:
    print(at.execute(text('SELECT count(*) FROM a')).scalar())
    # labels and values in one statement, as Core writes them
    a = table('a', column('k'), column('x'))
    for k in (1, -2):
        found = at.execute(select(a.c.k.label('key'), a.c.x.label('user'), (a.c.k + 1).label('Next')).where(a.c.k == k))
        print(list(found.keys()), found.fetchall())
    print(at.execute(select(func.count().label('n')).select_from(a).where(a.c.x == "one'; DROP TABLE a; --")).mappings().fetchall())
    print(at.execute(text('SELECT k AS n, :x AS "a b" FROM a WHERE k > :k ORDER BY k'), {'k': -3, 'x': "AS z'"}).mappings().fetchall())
