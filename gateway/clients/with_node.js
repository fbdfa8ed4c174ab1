// Tries node-pg on a gateway: node with_node.js FOLDER PORT. Prints how many checks it made; the first that fails ends it.
'use strict'

const assert = require('assert')
const { Client, Pool } = require('pg')

const settings = { host: process.argv[2], port: Number(process.argv[3]), database: 'bank', user: 'clerk' }
const TAKE = 'UPDATE stock SET pieces = pieces - $1 WHERE id = $2'
let checks = 0

function same (got, wanted) {
  assert.deepStrictEqual(got, wanted)
  checks += 1
}

async function refused (asked, wanted) {
  const error = await asked.then(() => null, error => error)
  assert.notStrictEqual(error, null, 'it is not refused')
  const got = {}
  for (const name of Object.keys(wanted)) got[name] = error[name]
  same(got, wanted)
}

async function main () {
  const client = new Client(settings)
  await client.connect()
  await client.query('CREATE TABLE stock (id INTEGER PRIMARY KEY, pieces INTEGER RESERVABLE CONSTRAINT in_stock CHECK (pieces >= 0), ' +
    'price NUMBER(8,2), name VARCHAR2(20))')
  const names = ["Bob's", '\\', '"', '$1', 'ä€𝄞']
  for (const [place, name] of names.entries()) {
    await client.query('INSERT INTO stock VALUES ($1, $2, $3, $4)', [place + 1, 999999999999999, '-9.50', name])
  }
  const all = await client.query('SELECT * FROM stock')
  same(all.rows, names.map((name, place) => ({ id: String(place + 1), pieces: '999999999999999', price: '-9.50', name })))
  same(all.fields.map(it => [it.name, it.dataTypeID]), [['id', 20], ['pieces', 20], ['price', 1700], ['name', 1043]])
  same((await client.query(TAKE, [999999999999989, 1])).rowCount, 1)
  same((await client.query(TAKE, [1, 9])).rowCount, 0)
  await refused(client.query(TAKE, [11, 1]), { code: '23514', constraint: 'in_stock', table: 'stock', severity: 'ERROR' })
  await refused(client.query('INSERT INTO stock VALUES (1, 1, 1, $1)', ['x']), { code: '23505' })
  await refused(client.query('SELEC * FROM stock'), { code: '42601', position: '1' })

  await client.query('BEGIN')
  await client.query(TAKE, [1, 1])
  await client.query('SAVEPOINT first')
  await refused(client.query(TAKE, [99, 1]), { code: '23514' })
  await refused(client.query(TAKE, [1, 1]), { code: '25P02' })
  await client.query('ROLLBACK TO SAVEPOINT first')
  await client.query(TAKE, [2, 1])
  await client.query('COMMIT')
  const named = { name: 'one', text: 'SELECT * FROM stock WHERE id = $1' }
  for (const place of [1, 2]) {
    const got = await client.query({ ...named, values: [place] })
    same(got.rows[0].pieces, place === 1 ? '7' : '999999999999999')
  }
  same((await client.query({ ...named, values: [1], rowMode: 'array' })).rows, [['1', '7', '-9.50', "Bob's"]])
  const several = await client.query('SELECT * FROM stock WHERE id = 1; UPDATE stock SET pieces = pieces - 1 WHERE id = 1')
  same(several.map(it => [it.command, it.rowCount]), [['SELECT', 1], ['UPDATE', 1]])

  // What Sequelize and TypeORM ask first.
  same((await client.query('SELECT 1+1 AS result')).rows, [{ result: 2 }])
  same((await client.query('SELECT * FROM current_schema()')).rows, [{ current_schema: 'public' }])

  const pool = new Pool({ ...settings, max: 8 })
  await Promise.all(Array.from({ length: 40 }, () => pool.query(TAKE, [1, 2])))
  same((await pool.query(named.text, [2])).rows[0].pieces, '999999999999959')
  const holder = await pool.connect()
  await holder.query('BEGIN')
  await holder.query(TAKE, [6, 1])
  await refused(client.query(TAKE, [1, 1]), { code: '23514' })
  await holder.query('ROLLBACK')
  holder.release()
  same((await client.query(TAKE, [6, 1])).command, 'UPDATE')
  await pool.end()
  await client.end()
  console.log(`${checks} checks`)
}

main().catch(error => {
  console.error(error)
  process.exit(1)
})
