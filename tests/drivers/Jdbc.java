import java.sql.*;

/** What the JDBC driver does at a server: java -cp postgresql.jar Jdbc.java PORT [PARAMETERS] */
public class Jdbc {
    public static void main(String[] words) throws Exception {
        String parameters = words.length > 1 ? "&" + words[1] : "";
        try (Connection at = DriverManager.getConnection("jdbc:postgresql://127.0.0.1:" + words[0] + "/root?user=root" + parameters)) {
            statements(at);
            labels(at);
            blocks(at);
            values(at);
            pieces(at);
            reads(at);
        }
    }

    static void statements(Connection at) throws SQLException {
        try (Statement s = at.createStatement()) {
            s.execute("CREATE TABLE j (k BIGINT PRIMARY KEY, x TEXT, b BOOLEAN)");
            System.out.println(s.executeUpdate("INSERT INTO j VALUES (1, 'one', TRUE), (2, NULL, FALSE)") + " rows");
            try (ResultSet rows = s.executeQuery("SELECT k, x, b FROM j ORDER BY k")) {
                while (rows.next()) {
                    System.out.println(rows.getLong("k") + " " + rows.getString("x") + " " + rows.getBoolean("b"));
                }
            }
        }
    }

    /** Labels of columns, in a statement that is described and carried out seven times. */
    static void labels(Connection at) throws SQLException {
        try (PreparedStatement p = at.prepareStatement("SELECT k AS \"Key\", x AS user, b FROM j AS t ORDER BY k")) {
            for (int turn = 0; turn < 7; turn++) {
                try (ResultSet rows = p.executeQuery()) {
                    ResultSetMetaData told = rows.getMetaData();
                    rows.next();
                    System.out.println(told.getColumnLabel(1) + " " + told.getColumnLabel(2) + " " + told.getColumnLabel(3) + " " + rows.getLong("Key") + " " + rows.getString("user"));
                }
            }
        }
        try (PreparedStatement p = at.prepareStatement("SELECT k AS n, ? AS \"a ?\" FROM j WHERE k = ?")) {
            for (int turn = 0; turn < 7; turn++) {
                p.setString(1, "AS z'");
                p.setLong(2, 1 + turn % 2);
                try (ResultSet rows = p.executeQuery()) {
                    ResultSetMetaData told = rows.getMetaData();
                    rows.next();
                    System.out.println(told.getColumnLabel(1) + " " + told.getColumnLabel(2) + " " + rows.getLong("n") + " " + rows.getString("a ?"));
                }
            }
        }
        try (Statement s = at.createStatement(); ResultSet rows = s.executeQuery("SELECT count(*) AS n FROM j")) {
            rows.next();
            System.out.println(rows.getLong("n"));
        }
    }

    static void blocks(Connection at) throws SQLException {
        at.setAutoCommit(false);
        try (Statement s = at.createStatement()) {
            s.executeUpdate("INSERT INTO j VALUES (3, 'three', NULL)");
            at.rollback();
            try {
                s.executeUpdate("INSERT INTO j VALUES (1, 'again', NULL)");
            } catch (SQLException refusal) {
                System.out.println("refused " + refusal.getSQLState());
            }
            at.rollback();
            s.executeUpdate("INSERT INTO j VALUES (4, 'four', NULL)");
            at.commit();
        }
        at.setAutoCommit(true);
    }

    /** 10,000 rows, 100 at a time, and as many again of which another statement of the block is asked in their middle. */
    static void pieces(Connection at) throws SQLException {
        try (Statement s = at.createStatement()) {
            s.execute("CREATE TABLE many (k BIGINT PRIMARY KEY, x TEXT)");
            for (int first = 1; first <= 10000; first += 250) {
                StringBuilder text = new StringBuilder("INSERT INTO many VALUES ");
                for (int k = first; k < first + 250; k++) text.append(k == first ? "" : ", ").append("(").append(k).append(", 'row ").append(k).append("')");
                s.executeUpdate(text.toString());
            }
        }
        at.setAutoCommit(false);
        try (PreparedStatement p = at.prepareStatement("SELECT k, x FROM many WHERE k > ? ORDER BY k"); Statement other = at.createStatement()) {
            p.setFetchSize(100);
            for (int turn = 0; turn < 2; turn++) {
                p.setLong(1, turn);
                long rows = 0, wrong = 0;
                try (ResultSet each = p.executeQuery()) {
                    while (each.next()) {
                        rows++;
                        if (each.getLong(1) != rows + turn || !each.getString(2).equals("row " + (rows + turn))) wrong++;
                        if (rows == 5000) other.executeUpdate("DELETE FROM many WHERE k > 9990");
                    }
                }
                System.out.println(rows + " rows, " + wrong + " wrong");
                at.rollback();
            }
        }
        at.setAutoCommit(true);
    }

    static void reads(Connection at) throws SQLException {
        at.setReadOnly(true);
        at.setAutoCommit(false);
        try (Statement s = at.createStatement()) {
            try (ResultSet rows = s.executeQuery("SELECT count(*) FROM many")) {
                rows.next();
                System.out.println(rows.getLong(1) + " read");
            }
            try {
                s.executeUpdate("DELETE FROM many");
            } catch (SQLException refusal) {
                System.out.println("refused " + refusal.getSQLState());
            }
            at.rollback();
        }
        at.setReadOnly(false);
        at.setAutoCommit(true);
    }

    static void values(Connection at) throws SQLException {
        try (PreparedStatement p = at.prepareStatement("SELECT k, x FROM j WHERE k = ? OR x = ? ORDER BY k")) {
            for (int turn = 0; turn < 8; turn++) {      // from the fifth on the driver prepares it on the server
                p.setLong(1, 4);
                p.setString(2, turn == 7 ? "one'; DROP TABLE j; --" : "one");
                try (ResultSet rows = p.executeQuery()) {
                    StringBuilder line = new StringBuilder();
                    while (rows.next()) line.append(rows.getLong(1)).append(" ").append(rows.getString(2)).append(", ");
                    System.out.println(line);
                }
            }
        }
        try (PreparedStatement p = at.prepareStatement("INSERT INTO j VALUES (?, ?, ?)")) {
            p.setLong(1, -5);
            p.setNull(2, Types.VARCHAR);
            p.setBoolean(3, true);
            System.out.println(p.executeUpdate() + " rows");
        }
    }
}
