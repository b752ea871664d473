// What node-postgres does at a server: node node_postgres.js PORT
const { Client, Pool } = require('pg');
const place = { host: '127.0.0.1', port: +process.argv[2], user: 'root', database: 'root' };

async function statements(at) {
  await at.query('CREATE TABLE n (k BIGINT PRIMARY KEY, x TEXT)');
  console.log((await at.query("INSERT INTO n VALUES (1, 'one'), (2, NULL)")).rowCount, 'rows');
  console.log(JSON.stringify((await at.query('SELECT k, x FROM n ORDER BY k')).rows));
  await at.query('BEGIN');
  await at.query("INSERT INTO n VALUES (3, 'three')");
  await at.query('ROLLBACK');
  await at.query("INSERT INTO n VALUES (1, 'again')").catch(refusal => console.log('refused', refusal.code));
}

async function values(at) {
  const found = await at.query('SELECT k FROM n WHERE k = $1 OR x = $2', [2, "one'; DROP TABLE n; --"]);
  console.log(JSON.stringify(found.rows));
  const labelled = 'SELECT k AS n, $2 AS "a $1" FROM n WHERE k = $1';
  for (const k of [1, 2]) console.log(JSON.stringify((await at.query({ name: 'labels', text: labelled, values: [k, "AS z'"] })).rows));
  const prepared = { name: 'one', text: 'INSERT INTO n VALUES ($1, $2)' };
  for (const row of [[-4, null], [5, 'it\'s']]) await at.query({ ...prepared, values: row });
  console.log(JSON.stringify((await at.query('SELECT k, x FROM n ORDER BY k')).rows));
}

async function pooled() {
  const pool = new Pool({ ...place, max: 3 });
  const all = await Promise.all([...Array(9).keys()].map(() => pool.query('SELECT count(*) FROM n')));
  console.log(all.map(found => found.rows[0].count).join(' '));
  await pool.end();
}

(async () => {
  const at = new Client(place);
  await at.connect();
  await statements(at);
  await values(at);
  await at.end();
  await pooled();
})().catch(fault => { console.log('failed', fault.code, fault.message); process.exit(1); });
