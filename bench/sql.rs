// The same warehouse in SQLite: a table of facts, a summary table for each row of levels, and triggers that keep them.
use crate::common::Levels;

const NAMES: [&str; 4] = ["branch", "day", "shelf", "kind"];

pub struct Schema<'a> {
    pub dimensions: &'a [Vec<u32>],
    pub kept: &'a [Levels],
}

// What a question is answered from.
pub enum Source {
    Table(usize),
    Facts,
}

impl Schema<'_> {
    fn names(&self) -> &[&str] {
        &NAMES[..self.dimensions.len()]
    }

    // A summary table has no column for a dimension in which everything is one.
    fn shown(&self, levels: &Levels) -> Vec<usize> {
        (0..levels.len()).filter(|i| levels[*i] as usize <= self.dimensions[*i].len()).collect()
    }

    // A number taken up from one level to another that is there.
    fn raised(&self, i: usize, column: &str, from: u32, to: u32) -> String {
        let part: u32 = self.dimensions[i][from as usize..to as usize].iter().product();
        if part == 1 {
            column.to_string()
        } else {
            format!("{column} / {part}")
        }
    }

    // The place of a fact at levels, a column for each dimension that is shown.
    fn place(&self, row: &str, levels: &Levels) -> Vec<String> {
        let number = |i: usize| self.raised(i, &format!("{row}.{}", NAMES[i]), 0, levels[i]);
        self.shown(levels).into_iter().map(number).collect()
    }

    fn table(&self, k: usize) -> String {
        let columns: Vec<&str> = self.shown(&self.kept[k]).into_iter().map(|i| NAMES[i]).collect();
        let typed: Vec<String> = columns.iter().map(|name| format!("{name} INT")).collect();
        let (typed, key) = (typed.join(", "), columns.join(", "));
        format!("CREATE TABLE table_{k} ({typed}, count INT, sum INT, PRIMARY KEY ({key})) WITHOUT ROWID;\n")
    }

    fn put(&self, k: usize) -> String {
        let place = self.place("new", &self.kept[k]).join(", ");
        format!(
            "  INSERT INTO table_{k} VALUES ({place}, 1, new.amount)\n    \
             ON CONFLICT DO UPDATE SET count = count + 1, sum = sum + excluded.sum;\n"
        )
    }

    fn take(&self, k: usize) -> String {
        let levels = &self.kept[k];
        let columns = self.shown(levels).into_iter().zip(self.place("old", levels));
        let same: Vec<String> = columns.map(|(i, number)| format!("{} = {number}", NAMES[i])).collect();
        let same = same.join(" AND ");
        format!(
            "  UPDATE table_{k} SET count = count - 1, sum = sum - old.amount WHERE {same};\n  \
             DELETE FROM table_{k} WHERE {same} AND count = 0;\n"
        )
    }

    // The key of the facts serves to find one that is to go. A delete is a row put into the view `gone`, so that one prepared
    // statement does all of them.
    pub fn create(&self) -> String {
        let names = self.names();
        let typed: Vec<String> = names.iter().map(|name| format!("{name} INT")).collect();
        let (columns, typed) = (names.join(", "), typed.join(", "));
        let same: Vec<String> = names.iter().chain(&["amount"]).map(|name| format!("{name} = new.{name}")).collect();
        let mut text = format!(
            "CREATE TABLE fact ({typed}, amount INT, id INT, PRIMARY KEY ({columns}, amount, id)) WITHOUT ROWID;\n\
             CREATE VIEW gone AS SELECT {columns}, amount FROM fact;\n\
             CREATE TRIGGER go INSTEAD OF INSERT ON gone BEGIN\n  \
             DELETE FROM fact WHERE ({columns}, amount, id) =\n    \
             (SELECT {columns}, amount, id FROM fact WHERE {} ORDER BY id DESC LIMIT 1);\nEND;\n",
            same.join(" AND ")
        );
        let all = 0..self.kept.len();
        text.extend(all.clone().map(|k| self.table(k)));
        let puts: String = all.clone().map(|k| self.put(k)).collect();
        let takes: String = all.map(|k| self.take(k)).collect();
        text += &format!("CREATE TRIGGER put AFTER INSERT ON fact BEGIN\n{puts}END;\n");
        text + &format!("CREATE TRIGGER take AFTER DELETE ON fact BEGIN\n{takes}END;\n")
    }

    // Rows of facts from a file, in their order.
    pub fn load(&self, name: &str, file: &str) -> String {
        let columns = self.names().join(" INT, ");
        format!("CREATE TABLE {name} (id INTEGER PRIMARY KEY, {columns} INT, amount INT);\n.import --csv \"{file}\" {name}\n")
    }

    pub fn insert_all(&self, from: &str) -> String {
        format!("INSERT INTO fact SELECT {}, amount, id FROM {from} ORDER BY id;\n", self.names().join(", "))
    }

    pub fn delete_all(&self, from: &str) -> String {
        format!("INSERT INTO gone SELECT {}, amount FROM {from} ORDER BY id;\n", self.names().join(", "))
    }

    // A question as a query, from a table or from the facts. A table at its levels is the answer as it stands.
    pub fn question(&self, levels: &Levels, source: Source) -> String {
        let finest = vec![0; levels.len()];
        let (from, name, totals) = match source {
            Source::Table(k) if self.kept[k] == *levels => return format!("SELECT * FROM table_{k}"),
            Source::Table(k) => (&self.kept[k], format!("table_{k}"), "sum(count) AS count, sum(sum) AS sum"),
            Source::Facts => (&finest, "fact".to_string(), "count(*) AS count, sum(amount) AS sum"),
        };
        let shown = self.shown(levels);
        let column = |i: &usize| format!("{} AS {}", self.raised(*i, NAMES[*i], from[*i], levels[*i]), NAMES[*i]);
        let columns: Vec<String> = shown.iter().map(column).collect();
        let places: Vec<String> = (1..=shown.len()).map(|i| i.to_string()).collect();
        format!("SELECT {}, {totals} FROM {name} GROUP BY {}", columns.join(", "), places.join(", "))
    }

    // The rows of a query as the lines that replay prints.
    pub fn lines(&self, levels: &Levels, query: &str) -> String {
        let shown = self.shown(levels);
        let number = |i: usize| if shown.contains(&i) { NAMES[i] } else { "0" };
        let place: Vec<&str> = (0..levels.len()).map(number).collect();
        format!("SELECT {} || ': ' || count || ' ' || sum FROM ({query})", place.join(" || ' ' || "))
    }

    // A query is done for each row that is put into a view, and what it finds is thrown away.
    pub fn done_by(&self, view: &str, query: &str) -> String {
        format!(
            "CREATE VIEW {view} AS SELECT 0 AS id;\n\
             CREATE TRIGGER {view}_ask INSTEAD OF INSERT ON {view} BEGIN\n  {query};\nEND;\n"
        )
    }
}
