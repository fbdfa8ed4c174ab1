import java.math.BigDecimal;
import java.sql.Connection;
import java.sql.DriverManager;
import java.sql.PreparedStatement;
import java.sql.ResultSet;
import java.sql.SQLException;
import java.sql.Savepoint;
import java.sql.Statement;
import java.util.Arrays;
import java.util.UUID;
import org.postgresql.util.PSQLException;
import org.postgresql.util.ServerErrorMessage;

/** JDBC on rows from a number on: java WithJdbc FIRST URL. Prints what it gets. */
public final class WithJdbc {
    private static final String TAKE = "UPDATE stock SET pieces = pieces - ? WHERE id = ?";
    private static final String ORDER = "INSERT INTO orders (item, pieces) VALUES (?, ?)";
    /** From the fifth use on the driver makes a statement with a name, and asks for binary values. */
    private static final int USES = 12;

    private final int first;
    private final Connection connection;

    private WithJdbc(int first, Connection connection) {
        this.first = first;
        this.connection = connection;
    }

    /** What has to be refused. */
    private interface Act {
        int run() throws SQLException;
    }

    private static void refused(String what, Act act) {
        try {
            System.out.println(what + " not refused: " + act.run());
        } catch (SQLException error) {
            ServerErrorMessage told = ((PSQLException) error).getServerErrorMessage();
            System.out.println(what + " " + error.getSQLState() + " " + told.getTable() + " " + told.getConstraint());
        }
    }

    private int run(String text, int... values) throws SQLException {
        try (PreparedStatement statement = connection.prepareStatement(text)) {
            for (int place = 0; place < values.length; place++) {
                statement.setInt(place + 1, values[place]);
            }
            return statement.executeUpdate();
        }
    }

    private void show(String what, String text) throws SQLException {
        try (Statement statement = connection.createStatement(); ResultSet rows = statement.executeQuery(text)) {
            StringBuilder line = new StringBuilder(what);
            while (rows.next()) {
                for (int place = 1; place <= rows.getMetaData().getColumnCount(); place++) {
                    line.append(place == 1 ? " | " : ", ").append(rows.getString(place));
                }
            }
            System.out.println(line);
        }
    }

    private void stock(String what) throws SQLException {
        show(what, "SELECT id, title, pieces FROM stock WHERE id BETWEEN " + first + " AND " + (first + 99) + " ORDER BY id");
        show(what, "SELECT item, pieces FROM orders WHERE item BETWEEN " + first + " AND " + (first + 99) + " ORDER BY id");
    }

    private void all() throws SQLException {
        int one = first + 1;
        int two = first + 2;
        int three = first + 3;
        int four = first + 4;
        System.out.println("one " + run(TAKE, 2, one) + run(TAKE, -1, one) + run(TAKE, 1, first + 98));
        refused("too many", () -> run(TAKE, 1000, one));
        try (PreparedStatement take = connection.prepareStatement(TAKE); PreparedStatement back = connection.prepareStatement(TAKE + " RETURNING id, title")) {
            for (int use = 0; use < USES; use++) {
                take.setInt(1, use % 3);
                take.setInt(2, three);
                System.out.println("again " + take.executeUpdate());
                back.setInt(1, 1);
                back.setInt(2, three);
                try (ResultSet rows = back.executeQuery()) {
                    rows.next();
                    System.out.println("returning " + rows.getInt(1) + rows.getString(2));
                }
            }
            take.setLong(1, 1);
            System.out.println("long " + take.executeUpdate());
            connection.setAutoCommit(false);
            for (int turn = 0; turn < 20; turn++) {
                take.setInt(1, turn % 5 - 2);
                take.setInt(2, turn % 2 == 0 ? three : four);
                take.addBatch();
            }
            System.out.println("batch " + Arrays.toString(take.executeBatch()));
            connection.commit();
            for (int turn = 0; turn < 3; turn++) {
                take.setInt(1, turn == 1 ? 1000 : 1);
                take.setInt(2, three);
                take.addBatch();
            }
            refused("in a batch", () -> {
                try {
                    return take.executeBatch().length;
                } catch (java.sql.BatchUpdateException error) {
                    throw (SQLException) error.getNextException();
                }
            });
            connection.rollback();
        }
        stock("batches");
        run(ORDER, one, 1);
        run(TAKE, 1, one);
        Savepoint place = connection.setSavepoint("a name");
        run(ORDER, two, 1000);
        refused("in a savepoint", () -> run(TAKE, 1000, two));
        refused("failed", () -> run(TAKE, 1, two));
        connection.rollback(place);
        run(ORDER, two, 2);
        run(TAKE, 2, two);
        connection.releaseSavepoint(place);
        connection.commit();
        run(TAKE, 1, two);
        run(ORDER, two, 1);
        connection.rollback();
        connection.setTransactionIsolation(Connection.TRANSACTION_REPEATABLE_READ);
        run(ORDER, four, 1);
        run(TAKE, 1, four);
        connection.commit();
        connection.setAutoCommit(true);
        stock("blocks");
        try (PreparedStatement any = connection.prepareStatement("UPDATE stock SET pieces = pieces - 1 WHERE id = ANY (?)")) {
            any.setArray(1, connection.createArrayOf("integer", new Object[] {one, four}));
            System.out.println("any " + any.executeUpdate());
        }
        try (Statement several = connection.createStatement()) {
            several.execute("INSERT INTO orders (item, pieces) VALUES (" + one + ", 1); UPDATE stock SET pieces = pieces - 1 WHERE id = " + one + "; SELECT 7");
            System.out.println("string " + several.getUpdateCount() + several.getMoreResults() + several.getUpdateCount() + several.getMoreResults());
        }
        String with = "WITH s AS (UPDATE stock SET pieces = pieces - ? WHERE id = ? AND pieces >= ? RETURNING id) INSERT INTO orders (item, pieces) SELECT id, ? FROM s";
        System.out.println("with " + run(with, 1, one, 1, 1) + run(with, 1000, one, 1000, 1000));
        try (PreparedStatement move = connection.prepareStatement("UPDATE account SET balance = balance - ?, held = held + ? WHERE id = ?")) {
            move.setBigDecimal(1, new BigDecimal("1.25"));
            move.setBigDecimal(2, new BigDecimal("0.50"));
            move.setObject(3, UUID.fromString(String.format("00000000-0000-0000-0000-%012d", first)));
            System.out.println("account " + move.executeUpdate());
            move.setBigDecimal(2, new BigDecimal("1000"));
            refused("enough", move::executeUpdate);
        }
        try (PreparedStatement move = connection.prepareStatement("UPDATE shelf SET room = room + ? WHERE code = ?")) {
            move.setLong(1, 7);
            move.setString(2, "it's " + first + " ä");
            System.out.println("shelf " + move.executeUpdate());
        }
        show("account", String.format("SELECT balance, held FROM account WHERE id = '00000000-0000-0000-0000-%012d'", first));
        try (Statement statement = connection.createStatement()) {
            System.out.println("literal " + statement.executeUpdate("UPDATE stock SET pieces = pieces - 1 WHERE id = " + one));
        }
        stock("all");
    }

    public static void main(String[] words) throws SQLException {
        try (Connection connection = DriverManager.getConnection(words[1])) {
            new WithJdbc(Integer.parseInt(words[0]), connection).all();
        }
    }
}
