// node-pg on rows from a number on: node with_node.js FIRST HOST PORT DATABASE. Prints what it gets.
'use strict'

const { Client, Pool } = require('pg')

const [first, host, port, database] = [Number(process.argv[2]), process.argv[3], Number(process.argv[4]), process.argv[5]]
const settings = { host, port, database, user: 'clerk' }
const TAKE = 'UPDATE stock SET pieces = pieces - $1 WHERE id = $2'
const ORDER = 'INSERT INTO orders (item, pieces) VALUES ($1, $2)'

function say (what, ...words) {
  console.log(what, ...words.map(it => JSON.stringify(it)))
}

async function refused (what, asked) {
  try {
    say(what, 'not refused', (await asked).rowCount)
  } catch (error) {
    say(what, error.code, error.table, error.constraint)
  }
}

async function stock (what, client) {
  say(what, (await client.query('SELECT id, title, pieces FROM stock WHERE id BETWEEN $1 AND $2 ORDER BY id', [first, first + 99])).rows)
  say(what, (await client.query('SELECT item, pieces FROM orders WHERE item BETWEEN $1 AND $2 ORDER BY id', [first, first + 99])).rows)
}

async function main () {
  const client = new Client(settings)
  await client.connect()
  const [one, two, three] = [first + 1, first + 2, first + 3]
  for (const values of [[2, one], [-1, one], [1, first + 98]]) {
    const got = await client.query(TAKE, values)
    say('one', got.command, got.rowCount)
  }
  await refused('too many', client.query(TAKE, [1000, one]))
  say('literal', (await client.query(`UPDATE stock SET pieces = pieces - 1 WHERE id = ${one}`)).rowCount)
  for (let use = 0; use < 4; use++) {
    const got = await client.query({ name: 'take', text: TAKE + ' RETURNING id, title', values: [1, one] })
    say('named', got.rows, got.fields.map(it => [it.name, it.dataTypeID]))
  }
  await client.query('BEGIN')
  await client.query(ORDER, [one, 1])
  await client.query(TAKE, [1, one])
  await client.query('SAVEPOINT a')
  await client.query(ORDER, [two, 1000])
  await refused('in a savepoint', client.query(TAKE, [1000, two]))
  await refused('failed', client.query(TAKE, [1, two]))
  await client.query('ROLLBACK TO SAVEPOINT a')
  await client.query(ORDER, [two, 2])
  await client.query(TAKE, [2, two])
  say('commit', (await client.query('COMMIT')).command)
  await client.query('BEGIN')
  await client.query(TAKE, [1, two])
  await client.query('ROLLBACK')
  await client.query('BEGIN')
  await refused('in a block', client.query(TAKE, [1000, two]))
  say('commit', (await client.query('COMMIT')).command)
  await stock('blocks', client)
  const pool = new Pool({ ...settings, max: 8 })
  await Promise.all(Array.from({ length: 40 }, async () => {
    const it = await pool.connect()
    await it.query('BEGIN')
    await it.query(ORDER, [three, 1])
    await it.query(TAKE, [1, three])
    await it.query('COMMIT')
    it.release()
  }))
  await pool.end()
  const account = `00000000-0000-0000-0000-${String(first).padStart(12, '0')}`
  const move = 'UPDATE account SET balance = balance - $1, held = held + $2 WHERE id = $3'
  say('account', (await client.query(move, ['1.25', 0.5, account])).rowCount)
  await refused('enough', client.query(move, [90, 9, account]))
  say('account', (await client.query('SELECT owner, balance, held FROM account WHERE id = $1', [account])).rows)
  say('shelf', (await client.query('UPDATE shelf SET room = room + $1 WHERE code = $2', [7, `it's ${first} ä`])).rowCount)
  say('any', (await client.query('UPDATE stock SET pieces = pieces - 1 WHERE id = ANY($1)', [[one, three]])).rowCount)
  const text = `BEGIN; INSERT INTO orders (item, pieces) VALUES (${one}, 1) RETURNING item; UPDATE stock SET pieces = pieces - 1 WHERE id = ${one}; COMMIT`
  say('string', (await client.query(text)).map(it => [it.command, it.rowCount, it.rows]))
  await refused('in a string', client.query(text.replace('- 1', '- 1000')))
  await client.query('ROLLBACK')
  const taken = 'WITH s AS (UPDATE stock SET pieces = pieces - $1 WHERE id = $2 AND pieces >= $1 RETURNING id) INSERT INTO orders (item, pieces) SELECT id, $1 FROM s'
  for (const pieces of [1, 1000]) {
    const got = await client.query(taken, [pieces, one])
    say('with', got.command, got.rowCount)
  }
  await stock('pool', client)
  await client.end()
}

main().catch(error => {
  console.error(error)
  process.exit(1)
})
