# ActiveRecord over ruby-pg: ruby with_activerecord.rb DIRECTORY PORT
require 'active_record'

$checks = 0

def same(got, wanted)
  raise "got #{got.inspect}, expected #{wanted.inspect}" unless got == wanted
  $checks += 1
end

ActiveRecord::Base.establish_connection(adapter: 'postgresql', host: ARGV[0], port: ARGV[1].to_i, username: 'clerk', database: 'bank')
connection = ActiveRecord::Base.connection
connection.execute('CREATE TABLE stock (id INTEGER PRIMARY KEY, pieces INTEGER RESERVABLE CONSTRAINT in_stock CHECK (pieces >= 0), price NUMBER(8,2), name VARCHAR2(20))')
connection.execute("INSERT INTO stock VALUES (1, 5, 9.50, 'tea')")
connection.execute("INSERT INTO stock VALUES (2, 7, 0.25, 'milk')")

class Stock < ActiveRecord::Base
  self.table_name = 'stock'
end

same(connection.tables, ['stock'])
same(Stock.column_names, %w[id pieces price name])
same(Stock.primary_key, 'id')
row = Stock.find(1)
same([row.pieces, row.price, row.name], [5, BigDecimal('9.5'), 'tea'])
same(Stock.find_by(id: 9), nil)
same(Stock.count, 2)
same(Stock.exists?(1), true)
same([Stock.first.id, Stock.last.id], [1, 2])
same(Stock.where(id: [1, 2, 3]).order(:id).pluck(:name), %w[tea milk])
same(Stock.order(:id).limit(1).offset(1).map(&:id), [2])
Stock.transaction { same(Stock.where(id: 1).update_all('pieces = pieces - 3'), 1) }
same(Stock.find(1).pieces, 2)
begin
  Stock.transaction do
    Stock.where(id: 2).update_all('pieces = pieces - 1')
    Stock.where(id: 1).update_all('pieces = pieces - 3')
  end
rescue ActiveRecord::StatementInvalid => error
  same(error.cause.result.error_field(PG::Result::PG_DIAG_CONSTRAINT_NAME), 'in_stock')
end
same(Stock.find(2).pieces, 7)
Stock.transaction do
  same(Stock.lock.find(2).id, 2)
  Stock.transaction(requires_new: true) { Stock.where(id: 2).update_all('pieces = pieces + 1') }
end
same(Stock.find(2).pieces, 8)
same(connection.delete('DELETE FROM stock WHERE id = 2'), 1)
ActiveRecord::Base.connection_pool.disconnect!
puts "#{$checks} checks"
