import java.math.BigDecimal;
import java.sql.Connection;
import java.sql.DatabaseMetaData;
import java.sql.DriverManager;
import java.sql.PreparedStatement;
import java.sql.ResultSet;
import java.sql.ResultSetMetaData;
import java.sql.SQLException;
import java.sql.Savepoint;
import java.sql.Statement;
import java.sql.Types;
import java.util.ArrayList;
import java.util.List;
import java.util.Objects;
import org.postgresql.util.PSQLException;
import org.postgresql.util.ServerErrorMessage;

/** Tries the JDBC driver on a gateway: java WithJdbc URL TABLE. Prints how many checks it made; the first that fails ends it. */
public final class WithJdbc {
    private static final String[] NAMES = {"Bob's", "\\", "\"", "$1 ? ", "ä€𝄞"};
    /** From the fifth use the driver makes a statement with a name, and asks for binary values. */
    private static final int USES = 12;

    private final String table;
    private int checks;

    private WithJdbc(String table) {
        this.table = table;
    }

    /** What is to be refused. */
    private interface Act {
        void run() throws SQLException;
    }

    private void same(Object got, Object wanted) {
        checks++;
        if (!Objects.equals(got, wanted)) {
            throw new AssertionError("got " + got + ", expected " + wanted);
        }
    }

    private ServerErrorMessage refused(String state, Act act) {
        try {
            act.run();
        } catch (SQLException error) {
            same(error.getSQLState(), state);
            return ((PSQLException) error).getServerErrorMessage();
        }
        throw new AssertionError("it is not refused: " + state);
    }

    private void types(Connection connection) throws SQLException {
        try (Statement statement = connection.createStatement()) {
            statement.execute("CREATE TABLE " + table + " (id INTEGER PRIMARY KEY, pieces INTEGER RESERVABLE CONSTRAINT in_stock"
                + " CHECK (pieces >= 0), price NUMBER(15,2), name VARCHAR2(20))");
        }
        try (PreparedStatement insert = connection.prepareStatement("INSERT INTO " + table + " VALUES (?, ?, ?, ?)")) {
            for (int place = 0; place < NAMES.length; place++) {
                insert.setInt(1, place);
                insert.setLong(2, 999999999999999L);
                insert.setBigDecimal(3, new BigDecimal("-9999999999999.99"));
                insert.setString(4, NAMES[place]);
                same(insert.executeUpdate(), 1);
            }
        }
        try (PreparedStatement select = connection.prepareStatement("SELECT * FROM " + table + " WHERE id = ?")) {
            for (int use = 0; use < USES; use++) {
                select.setInt(1, use % NAMES.length);
                try (ResultSet rows = select.executeQuery()) {
                    same(rows.next(), true);
                    same(rows.getLong("id"), (long) (use % NAMES.length));
                    same(rows.getLong(2), 999999999999999L);
                    same(rows.getBigDecimal("price"), new BigDecimal("-9999999999999.99"));
                    same(rows.getString("name"), NAMES[use % NAMES.length]);
                    same(rows.next(), false);
                }
            }
            ResultSetMetaData meta = select.getMetaData();
            same(meta.getColumnCount(), 4);
            same(meta.getColumnType(1), Types.BIGINT);
            same(meta.getColumnType(3), Types.NUMERIC);
            same(meta.getScale(3), 2);
            same(meta.getPrecision(4), 20);
            same(meta.getColumnName(4), "name");
        }
    }

    private void changes(Connection connection) throws SQLException {
        try (PreparedStatement take = connection.prepareStatement("UPDATE " + table + " SET pieces = pieces - ? WHERE id = ?")) {
            take.setLong(1, 999999999999979L);
            take.setInt(2, 1);
            same(take.executeUpdate(), 1);
            take.setInt(1, 1);
            take.setInt(2, 99);
            same(take.executeUpdate(), 0);
            take.setInt(1, 21);
            take.setInt(2, 1);
            ServerErrorMessage broken = refused("23514", take::executeUpdate);
            same(broken.getConstraint(), "in_stock");
            same(broken.getTable(), table);
            connection.setAutoCommit(false);
            take.setInt(1, 2);
            take.executeUpdate();
            Savepoint first = connection.setSavepoint();
            Savepoint second = connection.setSavepoint("a name of one's own");
            take.executeUpdate();
            connection.rollback(second);
            take.setInt(1, 99);
            refused("23514", take::executeUpdate);
            refused("25P02", take::executeUpdate);
            connection.rollback(first);
            take.setInt(1, 1);
            for (int use = 0; use < USES; use++) {
                take.executeUpdate();
            }
            connection.releaseSavepoint(first);
            connection.commit();
            take.setInt(1, 6);
            take.executeUpdate();
            connection.rollback();
            connection.setAutoCommit(true);
            take.setInt(1, 6);
            same(take.executeUpdate(), 1);
        }
        try (Statement statement = connection.createStatement(); ResultSet rows = statement.executeQuery("SELECT * FROM " + table + " WHERE id = 1")) {
            rows.next();
            same(rows.getInt("pieces"), 0);
        }
    }

    private void batches(Connection connection) throws SQLException {
        connection.setAutoCommit(false);
        try (PreparedStatement take = connection.prepareStatement("UPDATE " + table + " SET pieces = pieces - ? WHERE id = ?")) {
            List<Integer> wanted = new ArrayList<>();
            for (int turn = 0; turn < 50; turn++) {
                take.setInt(1, turn);
                take.setInt(2, 2);
                take.addBatch();
                wanted.add(1);
            }
            List<Integer> got = new ArrayList<>();
            for (int count : take.executeBatch()) {
                got.add(count);
            }
            same(got, wanted);
            connection.commit();
        }
        connection.setAutoCommit(true);
        try (Statement statement = connection.createStatement(); ResultSet rows = statement.executeQuery("SELECT * FROM " + table + " WHERE id = 2")) {
            rows.next();
            same(rows.getLong(2), 999999999999999L - 49 * 50 / 2);
        }
    }

    private void cursor(Connection connection) throws SQLException {
        connection.setAutoCommit(false);
        try (Statement statement = connection.createStatement()) {
            statement.setFetchSize(2);
            int seen = 0;
            try (ResultSet rows = statement.executeQuery("SELECT * FROM " + table)) {
                while (rows.next()) {
                    same(rows.getInt(1), seen++);
                }
            }
            same(seen, NAMES.length);
        }
        connection.commit();
        connection.setAutoCommit(true);
    }

    /** What the driver asks of the catalog. */
    private void metadata(Connection connection) throws SQLException {
        DatabaseMetaData asked = connection.getMetaData();
        same(column(asked.getTables(null, null, table, new String[] {"TABLE"}), "TABLE_NAME"), List.of(table));
        same(column(asked.getColumns(null, "public", table, "%"), "COLUMN_NAME"), List.of("id", "pieces", "price", "name"));
        same(column(asked.getColumns(null, "public", table, "%"), "TYPE_NAME"), List.of("int8", "int8", "numeric", "varchar"));
        same(column(asked.getPrimaryKeys(null, "public", table), "COLUMN_NAME"), List.of("id"));
        same(column(asked.getImportedKeys(null, "public", table), "FKCOLUMN_NAME"), List.of());
    }

    private static List<String> column(ResultSet rows, String name) throws SQLException {
        List<String> found = new ArrayList<>();
        while (rows.next()) {
            found.add(rows.getString(name));
        }
        return found;
    }

    public static void main(String[] words) throws SQLException {
        WithJdbc tried = new WithJdbc(words[1]);
        try (Connection connection = DriverManager.getConnection(words[0])) {
            tried.same(connection.isValid(5), true);
            tried.same(connection.getMetaData().getDatabaseMajorVersion(), 15);
            tried.types(connection);
            tried.changes(connection);
            tried.batches(connection);
            tried.cursor(connection);
            tried.metadata(connection);
            tried.refused("42601", () -> connection.createStatement().execute("SELEC"));
            tried.refused("42P01", () -> connection.createStatement().execute("SELECT * FROM nothing"));
            tried.refused("23505", () -> connection.createStatement().execute("INSERT INTO " + tried.table + " VALUES (1, 1, 1, 'x')"));
            tried.same(connection.isValid(5), true);
            connection.createStatement().execute("DROP TABLE " + tried.table);
        }
        System.out.println(tried.checks + " checks");
    }
}
