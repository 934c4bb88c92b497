// KCalendarCore (KDE): ICalFormat reads an event, and Recurrence::getNextDateTime walks it.
#include <KCalendarCore/Event>
#include <KCalendarCore/ICalFormat>
#include <iostream>
#include <string>
using namespace KCalendarCore;

static QDateTime parsed(const std::string &text)
{
    const QString basic = QString::fromStdString(text).remove('Z');
    const QDateTime local = basic.contains('T') ? QDateTime::fromString(basic, "yyyyMMdd'T'hhmmss") : QDate::fromString(basic, "yyyyMMdd").startOfDay();
    return text.back() == 'Z' ? QDateTime(local.date(), local.time(), Qt::UTC) : local;
}

static void answer(const std::string &words, const std::string &lines)
{
    char after[32] = "";
    int wanted = 0;
    if (sscanf(words.c_str(), "first %d", &wanted) != 1 && sscanf(words.c_str(), "after %31s %d", after, &wanted) != 2) {
        std::cout << "not asked\n";
        return;
    }
    const auto event = ICalFormat().fromString(QString::fromStdString("BEGIN:VCALENDAR\nVERSION:2.0\nPRODID:-\nBEGIN:VEVENT\n" + lines + "END:VEVENT\nEND:VCALENDAR\n")).dynamicCast<Event>();
    if (!event) { std::cout << "refused by the parser\n"; return; }
    QDateTime at = *after ? parsed(after) : event->dtStart().addSecs(-1);
    for (at = event->recurrence()->getNextDateTime(at); at.isValid() && wanted-- > 0; at = event->recurrence()->getNextDateTime(at))
        std::cout << at.toString(event->allDay() ? "yyyyMMdd" : "yyyyMMdd'T'hhmmss").toStdString() << '\n';
}

int main()
{
    for (std::string line, words, lines; std::getline(std::cin, line);) {
        if (line.empty()) { answer(words, lines); std::cout << std::endl; words = lines = ""; }
        else if (words.empty()) words = line;
        else lines += line + '\n';
    }
}
