# Two tenants, acme and bolt, keep their orders in one table. A policy guards it, so that each of them sees its own rows alone.
# A line is one event of a session: o is the shop, which owns the table, a is acme, b is bolt, c a clerk and t a temp.
# Run it over a new database in memory: guarddb run --memory root examples/tenants/tenants.sql

# The roles. What is granted to tenants is acme's and bolt's.
open r root
r: CREATE ROLE shop LOGIN
r: CREATE ROLE tenants
r: CREATE ROLE acme LOGIN
r: CREATE ROLE bolt LOGIN
r: GRANT tenants TO acme, bolt
r: CREATE ROLE clerk LOGIN
r: CREATE ROLE temp LOGIN
close r

# The table. Its key begins with the tenant, so that no tenant meets the keys of another.
open o shop
o: CREATE TABLE orders (tenant TEXT, number BIGINT, item TEXT NOT NULL, PRIMARY KEY (tenant, number))
o: ALTER TABLE orders ENABLE ROW LEVEL SECURITY
o: GRANT SELECT, INSERT, UPDATE, DELETE ON orders TO tenants
o: CREATE POLICY own_orders ON orders TO tenants USING (tenant = current_user)

# Each tenant writes its own rows. A row for another one is refused.
open a acme
open b bolt
a: INSERT INTO orders VALUES ('acme', 1, 'anvil'), ('acme', 2, 'rope')
b: INSERT INTO orders VALUES ('bolt', 1, 'screws')
a: INSERT INTO orders VALUES ('bolt', 2, 'anvil')

# Each sees its own rows, whatever it asks for.
a: SELECT * FROM orders
b: SELECT * FROM orders
b: SELECT count(*) FROM orders WHERE tenant = 'acme' OR true

# What a tenant changes and deletes without a condition is its own. It cannot hand a row over.
b: UPDATE orders SET item = 'nuts'
b: UPDATE orders SET tenant = 'acme', number = 9
a: DELETE FROM orders WHERE item = 'nuts'
a: SELECT item FROM orders

# The clerk may read all orders: the privilege comes by GRANT, the rows by a policy of its own.
open c clerk
c: SELECT * FROM orders
o: GRANT SELECT ON orders TO clerk WITH GRANT OPTION
c: SELECT * FROM orders
o: CREATE POLICY clerks ON orders FOR SELECT TO clerk, temp USING (true)
c: SELECT tenant, number FROM orders

# The clerk hands the privilege on. So the shop's REVOKE is refused, unless it takes with it what hangs on it.
open t temp
c: GRANT SELECT ON orders TO temp
t: SELECT count(*) FROM orders
o: REVOKE SELECT ON orders FROM clerk
o: REVOKE SELECT ON orders FROM clerk CASCADE
c: SELECT tenant, number FROM orders
t: SELECT count(*) FROM orders

# The tenants go on.
a: SELECT number, item FROM orders
b: SELECT number, item FROM orders
